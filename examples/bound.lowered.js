var _config$port;
const port = (_config$port = config.port) !== null && _config$port !== void 0 ? _config$port : 8080;
let size = port !== null && port !== void 0 ? port : 1, rest = this !== null && this !== void 0 ? this : size;
