const port = config.port ?? 8080;
let size = port ?? 1, rest = this ?? size;
