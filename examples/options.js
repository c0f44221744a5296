export const { port = 80, ...options } = readOptions();
