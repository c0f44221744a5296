import { area } from "./area.js";
export * as circles from "./circles.js";
export * as names from "./names.json" with { type: "json" };
export const unit = area.unit ?? "cm";
