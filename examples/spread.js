const defaults = { port: 80, log: console };
export function connect(options) {
  return open({ ...defaults, ...options, at: now() });
}
