import { defaults, read as readFile } from "./files.js";
import * as log from "./log.js";

var _globalThis$process$v, _globalThis$process;

let cache;

export const version = (_globalThis$process$v = (_globalThis$process = globalThis.process) === null || _globalThis$process === void 0 ? void 0 : _globalThis$process.version) !== null && _globalThis$process$v !== void 0 ? _globalThis$process$v : "none";

export function load(path = (() => {
  var _defaults$path;
  return (_defaults$path = defaults.path) !== null && _defaults$path !== void 0 ? _defaults$path : "./app.conf";
})(), { retries = (() => {
  var _defaults$retries;
  return (_defaults$retries = defaults === null || defaults === void 0 ? void 0 : defaults.retries) !== null && _defaults$retries !== void 0 ? _defaults$retries : 3;
})(), onError = (() => log === null || log === void 0 ? void 0 : log.error)() } = {}) {
  var _readFile;
  const text = (_readFile = readFile(path)) !== null && _readFile !== void 0 ? _readFile : "";
  try {
    var _cache$get, _cache;
    return (_cache$get = ((_cache = cache) !== null && _cache !== void 0 ? _cache : cache = new Map()).get(path)) !== null && _cache$get !== void 0 ? _cache$get : parse(text);
  } catch (error) {
    onError === null || onError === void 0 ? void 0 : onError(error === null || error === void 0 ? void 0 : error.message, Math.pow(retries, 2));
    return null;
  }
}

export const parse = (text, separator = (() => {
  var _settings$separator;
  return (_settings$separator = settings.separator) !== null && _settings$separator !== void 0 ? _settings$separator : "=";
})()) => {
  var _text$split;
  return (_text$split = text === null || text === void 0 ? void 0 : text.split(separator)) !== null && _text$split !== void 0 ? _text$split : [];
};

export default load;
