// Stand-ins for the helpers of the runtime: what they do, by the operations of ECMA-262 that they stand for.

/** Thrown by a host that has no move left. */
export const noMove = { noMove: true };

/** The error of a disposal that throws while another error is pending. */
export class Suppressed {
  constructor(error, suppressed) {
    this.error = error;
    this.suppressed = suppressed;
  }
}

/** `tellStack(stack, its number)` is called for each stack that is made. */
export function helpers(realm, tellStack) {
  let stacks = 0;
  return {
    /** What stands at even places is taken as it is, the rest is copied, each key read once. */
    objectSpread2(target, ...sources) {
      sources.forEach((source, index) => {
        if (index % 2 === 1) Object.defineProperties(target, Object.getOwnPropertyDescriptors(source));
        else copy(target, source, []);
      });
      return target;
    },
    extends(target, source) {
      return copy(target, source, []);
    },
    objectDestructuringEmpty(value) {
      if (value === undefined || value === null) throw new realm.TypeError(`Cannot destructure '${value}'`);
    },
    objectWithoutProperties(source, excluded) {
      return copy({}, source, excluded);
    },
    toPropertyKey(key) {
      return typeof key === 'symbol' ? key : String(key);
    },
    usingCtx() {
      const made = usingContext(realm);
      tellStack(made, stacks);
      stacks += 1;
      return made;
    },
  };
}

/** CopyDataProperties (ECMA-262, 7.3.25). */
function copy(target, source, excluded) {
  if (source === undefined || source === null) return target;
  const from = typeof source === 'function' ? source : Object(source);
  for (const key of Reflect.ownKeys(from)) {
    if (excluded.includes(key) || !Reflect.getOwnPropertyDescriptor(from, key)?.enumerable) continue;
    Object.defineProperty(target, key, { value: from[key], writable: true, enumerable: true, configurable: true });
  }
  return target;
}

/** The resources of a scope, the latest disposed of first (Explicit Resource Management, DisposeResources). */
function usingContext(realm) {
  const noError = {};
  const taken = [];
  return {
    e: noError,
    u(value) {
      if (value === undefined || value === null) return value;
      const method = value[Symbol.dispose];
      if (typeof method !== 'function') throw new realm.TypeError('Object is not disposable.');
      taken.push({ value, method });
      return value;
    },
    d() {
      let error = this.e;
      while (taken.length > 0) {
        const { value, method } = taken.pop();
        try {
          Reflect.apply(method, value, []);
        } catch (thrown) {
          if (thrown === noMove) throw thrown;
          error = error === noError ? thrown : new Suppressed(thrown, error);
        }
      }
      if (error !== noError) throw error;
    },
  };
}
