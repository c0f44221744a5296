import { connect } from "./connect.js";
export { users };
export function count() {
  return users.size;
}
try {
  var _usingCtx = babelHelpers.usingCtx();
  var pool = _usingCtx.u(connect());
  var users = pool.table("users");
} catch (_) {
  _usingCtx.e = _;
} finally {
  _usingCtx.d();
}
