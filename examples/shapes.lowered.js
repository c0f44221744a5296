import { area } from "./area.js";
import * as _circles from "./circles.js";
var _area$unit;
export { _circles as circles };
import * as _names from "./names.json" with { type: "json" };
export { _names as names };
export const unit = (_area$unit = area.unit) !== null && _area$unit !== void 0 ? _area$unit : "cm";
