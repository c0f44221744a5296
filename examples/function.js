function port(config) {
  return config.port ?? 8080;
}
