export function omit(object, name) {
  const {} = object, _name = name, { [_name]: removed } = object, others = babelHelpers.objectWithoutProperties(object, [_name].map(babelHelpers.toPropertyKey));
  return others;
}
export const changed = (list, _ref) => {
  let { id } = _ref, _id = id, { [_id]: old } = _ref, state = babelHelpers.objectWithoutProperties(_ref, ["id", _id].map(babelHelpers.toPropertyKey));
  return (babelHelpers.objectSpread2(babelHelpers.objectSpread2({}, state), {}, { [id]: list.length }));
};
