export class Session {
  #user;
  #log = (() => {
    var _console;
    return (_console = console) === null || _console === void 0 ? void 0 : _console.debug;
  })();
  attempts = (() => {
    var _globalThis$config$at, _globalThis$config;
    return (_globalThis$config$at = (_globalThis$config = globalThis.config) === null || _globalThis$config === void 0 ? void 0 : _globalThis$config.attempts) !== null && _globalThis$config$at !== void 0 ? _globalThis$config$at : 3;
  })();

  constructor(user) {
    this.#user = user;
  }

  get name() {
    var _this$user$profile$na, _this$user;
    return (_this$user$profile$na = (_this$user = this.#user) === null || _this$user === void 0 || (_this$user = _this$user.profile) === null || _this$user === void 0 ? void 0 : _this$user.name) !== null && _this$user$profile$na !== void 0 ? _this$user$profile$na : "guest";
  }

  can(action) {
    var _this$user$roles$incl, _this$user2;
    return (_this$user$roles$incl = (_this$user2 = this.#user) === null || _this$user2 === void 0 || (_this$user2 = _this$user2.roles) === null || _this$user2 === void 0 ? void 0 : _this$user2.includes(action)) !== null && _this$user$roles$incl !== void 0 ? _this$user$roles$incl : false;
  }

  rename(name) {
    var _this$user3, _this$user3$profile, _this$user$onRename, _this$user4, _this$log;
    (_this$user3$profile = (_this$user3 = this.#user).profile) !== null && _this$user3$profile !== void 0 ? _this$user3$profile : _this$user3.profile = {};
    this.#user.profile.name = name;
    (_this$user$onRename = (_this$user4 = this.#user).onRename) === null || _this$user$onRename === void 0 ? void 0 : _this$user$onRename.call(_this$user4, name);
    (_this$log = this.#log) === null || _this$log === void 0 ? void 0 : _this$log.call(this, "renamed");
  }

  wait() {
    return Math.pow(2, this.attempts);
  }

  static {
    var _Session$opened;
    (_Session$opened = Session.opened) !== null && _Session$opened !== void 0 ? _Session$opened : Session.opened = 0;
  }
}
