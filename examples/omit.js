export function omit(object, name) {
  const { [name]: removed, ...others } = object;
  return others;
}
export const changed = (list, { id, [id]: old, ...state }) => ({ ...state, [id]: list.length });
