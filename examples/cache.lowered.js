import { limit } from "./limits.js";
export class Cache {
  #entries = new Map();
  get(key, load = () => null) {
    if (!this.#entries.has(key)) this.#entries.set(key, load(key));
    return this.#entries.get(key);
  }
  get isFull() { return this.#entries.size >= limit; }
}
