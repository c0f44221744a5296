const _excluded = ["password"];
export function shownUser(_ref) {
  let { user: _ref2 } = _ref, { password } = _ref2, shown = babelHelpers.objectWithoutProperties(_ref2, _excluded), { session: { token } = {} } = _ref;
  return babelHelpers.objectSpread2(babelHelpers.objectSpread2({}, shown), {}, { hasSession: token !== undefined });
}
const _shownUser$settings = shownUser.settings, { theme: _ref3 = {} } = _shownUser$settings, { name } = _ref3, colors = babelHelpers.objectWithoutProperties(_ref3, ["name"]), { layout = "wide" } = _shownUser$settings;
export { name, colors, layout };
