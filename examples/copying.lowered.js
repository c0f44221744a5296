copying: try {
  var _usingCtx = babelHelpers.usingCtx();
  const source = _usingCtx.u(open("in.txt")), target = _usingCtx.u(open("out.txt", "w"));
  for (const line of source) {
    if (line === "") break copying;
    target.write(line);
  }
} catch (_) {
  _usingCtx.e = _;
} finally {
  _usingCtx.d();
}
