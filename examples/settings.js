import { defaults } from "./defaults.js";
export function settings({ verbose, ...options }) {
  return { ...defaults, ...options, verbose: verbose ?? false };
}
