import { handlers } from "./handlers.js";

export class Button extends Element {
  static #made = 0;

  constructor(name, { color = defaults?.color ?? "grey" } = {}) {
    super(name);
    this.color = color;
    Button.#made ||= 1;
  }

  press(event) {
    super.press?.(event);
    return handlers[this.name]?.map(handle => handle?.(event) ?? this);
  }
}
