import { handlers } from "./handlers.js";

export class Button extends Element {
  static #made = 0;

  constructor(name, { color = (() => {
    var _defaults$color, _defaults;
    return (_defaults$color = (_defaults = defaults) == null ? void 0 : _defaults.color) !== null && _defaults$color !== void 0 ? _defaults$color : "grey";
  })() } = {}) {
    super(name);
    this.color = color;
    Button.#made ||= 1;
  }

  press(event) {
    var _super$press, _handlers$this$name;
    (_super$press = super.press) == null ? void 0 : _super$press.call(this, event);
    return (_handlers$this$name = handlers[this.name]) == null ? void 0 : _handlers$this$name.map(handle => {
      var _handle;
      return (_handle = handle == null ? void 0 : handle(event)) !== null && _handle !== void 0 ? _handle : this;
    });
  }
}
