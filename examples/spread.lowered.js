const defaults = { port: 80, log: console };
export function connect(options) {
  return open(babelHelpers.objectSpread2(babelHelpers.objectSpread2(babelHelpers.objectSpread2({}, defaults), options), {}, { at: now() }));
}
