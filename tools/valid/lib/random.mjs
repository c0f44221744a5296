// A repeatable source of choices: the same seed gives the same ones on every machine.

/** Choices from a seed, by the generator mulberry32. */
export class Random {
  constructor(seed) {
    this.state = (Math.imul(seed, 0x9E3779B1) ^ 0x5bf03635) >>> 0;
  }

  /** A number from 0 up to 1. */
  number() {
    this.state = (this.state + 0x6D2B79F5) >>> 0;
    let mixed = Math.imul(this.state ^ (this.state >>> 15), this.state | 1);
    mixed ^= mixed + Math.imul(mixed ^ (mixed >>> 7), mixed | 61);
    return ((mixed ^ (mixed >>> 14)) >>> 0) / 2 ** 32;
  }

  chance(share) { return this.number() < share; }
  below(count) { return Math.floor(this.number() * count); }
  pick(list) { return list[this.below(list.length)]; }

  /** How often something stands, from `least` to `most`. */
  some(least, most, make) {
    return Array.from({ length: least + this.below(most - least + 1) }, (_, index) => make(index));
  }

  /** One of the choices, each a weight and a value. */
  weighted(choices) {
    let left = this.number() * choices.reduce((sum, [weight]) => sum + weight, 0);
    return (choices.find(([weight]) => (left -= weight) < 0) ?? choices.at(-1))[1];
  }
}
