export class Session {
  #user;
  #log = console?.debug;
  attempts = globalThis.config?.attempts ?? 3;

  constructor(user) {
    this.#user = user;
  }

  get name() {
    return this.#user?.profile?.name ?? "guest";
  }

  can(action) {
    return this.#user?.roles?.includes(action) ?? false;
  }

  rename(name) {
    this.#user.profile ??= {};
    this.#user.profile.name = name;
    this.#user.onRename?.(name);
    this.#log?.("renamed");
  }

  wait() {
    return 2 ** this.attempts;
  }

  static {
    Session.opened ??= 0;
  }
}
