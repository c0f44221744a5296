const port = config?.server?.port ?? 8080;
cache.hits ||= 0;
