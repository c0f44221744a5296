const _excluded = ["to", "label"], _excluded2 = ["depth"], _excluded3 = ["url"], _excluded4 = ["message"];
const Link = _ref => {
  let { to, label = to } = _ref, props = babelHelpers.objectWithoutProperties(_ref, _excluded);
  return h("a", babelHelpers.objectSpread2(babelHelpers.objectSpread2({}, props), {}, { href: to }), label);
};

function visit(pages, _ref4 = {}) {
  let { depth = 1 } = _ref4, options = babelHelpers.objectWithoutProperties(_ref4, _excluded2);
  for (const _ref3 of pages) {
    const { url } = _ref3, meta = babelHelpers.objectWithoutProperties(_ref3, _excluded3);
    {
      try {
        load(url, depth, meta, options);
      } catch (_ref2) {
        let { message } = _ref2, details = babelHelpers.objectWithoutProperties(_ref2, _excluded4);
        {
          report(message, details);
        }
      }
    }
  }
}
