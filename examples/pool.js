import { connect } from "./connect.js";
using pool = connect();
export const users = pool.table("users");
export function count() {
  return users.size;
}
