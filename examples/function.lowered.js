function port(config) {
  var _config$port;
  return (_config$port = config.port) !== null && _config$port !== void 0 ? _config$port : 8080;
}
