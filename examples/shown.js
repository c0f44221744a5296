export function shownUser({ user: { password, ...shown }, session: { token } = {} }) {
  return { ...shown, hasSession: token !== undefined };
}
const { theme: { name, ...colors } = {}, layout = "wide" } = shownUser.settings;
export { name, colors, layout };
