const _excluded = ["retries"];
const _load = load(), { host = "localhost", "port": port } = _load, options = babelHelpers.objectWithoutProperties(_load, ["host", "port"]);
export function request(url, settings) {
  const { retries = 3 } = settings, headers = babelHelpers.objectWithoutProperties(settings, _excluded);
  return send(host + port + url, retries, babelHelpers.objectSpread2(babelHelpers.objectSpread2({}, options), {}, { headers }));
}
