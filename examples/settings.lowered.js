import { defaults } from "./defaults.js";
import _objectWithoutProperties from "@oxc-project/runtime/helpers/objectWithoutProperties";
import _objectSpread from "@oxc-project/runtime/helpers/objectSpread2";
const _excluded = ["verbose"];
export function settings(_ref) {
  let { verbose } = _ref, options = _objectWithoutProperties(_ref, _excluded);
  return _objectSpread(_objectSpread(_objectSpread({}, defaults), options), {}, { verbose: verbose !== null && verbose !== void 0 ? verbose : false });
}
