const { host = "localhost", "port": port, ...options } = load();
export function request(url, settings) {
  const { retries = 3, ...headers } = settings;
  return send(host + port + url, retries, { ...options, headers });
}
