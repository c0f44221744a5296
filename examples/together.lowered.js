var _config$server$port, _config, _cache;
const port = (_config$server$port = (_config = config) === null || _config === void 0 || (_config = _config.server) === null || _config === void 0 ? void 0 : _config.port) !== null && _config$server$port !== void 0 ? _config$server$port : 8080;
(_cache = cache).hits || (_cache.hits = 0);
