const _readOptions = readOptions(), { port = 80 } = _readOptions, options = babelHelpers.objectWithoutProperties(_readOptions, ["port"]);
export { port, options };
