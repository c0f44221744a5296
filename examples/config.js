import { defaults, read as readFile } from "./files.js";
import * as log from "./log.js";

let cache;

export const version = globalThis.process?.version ?? "none";

export function load(path = defaults.path ?? "./app.conf", { retries = defaults?.retries ?? 3, onError = log?.error } = {}) {
  const text = readFile(path) ?? "";
  try {
    return (cache ??= new Map()).get(path) ?? parse(text);
  } catch (error) {
    onError?.(error?.message, retries ** 2);
    return null;
  }
}

export const parse = (text, separator = settings.separator ?? "=") => text?.split(separator) ?? [];

export default load;
