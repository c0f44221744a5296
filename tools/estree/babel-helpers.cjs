// The helpers that a lowered program calls under `--helpers=external`, as their names promise: `babelHelpers.objectSpread2` and
// `babelHelpers.extends` copy own enumerable properties, `babelHelpers.objectWithoutProperties` those of an object but for some names,
// `babelHelpers.objectDestructuringEmpty` throws where there is nothing to take apart, `babelHelpers.toPropertyKey` makes a key of a value, and
// `babelHelpers.usingCtx` makes the context of a `try` in which resources are used.
//   node -r ./tools/estree/babel-helpers.cjs FILE.js
'use strict';

globalThis.babelHelpers = { extends: extendsWith, objectDestructuringEmpty, objectSpread2, objectWithoutProperties, toPropertyKey, usingCtx };

function objectSpread2(target, ...sources) {
  for (const source of sources) copy(target, source, []);
  return target;
}

function extendsWith(target, source) {
  return copy(target, source, []);
}

function objectDestructuringEmpty(value) {
  if (value === null || value === undefined) throw new TypeError(`Cannot destructure '${value}'`);
}

/** A copy of a source that is neither null nor undefined, of which a pattern took the properties before: what the pattern names is left out. */
function objectWithoutProperties(source, excluded) {
  return copy({}, source, excluded);
}

/** The text or symbol that a value is as a key (ECMA-262, 7.1.19). */
function toPropertyKey(value) {
  const [key] = Reflect.ownKeys({ [value]: 0 });
  return key;
}

/** Own enumerable properties in their order, strings and then symbols, but for those with one of these names, which aren't read. */
function copy(target, source, excluded) {
  if (source === null || source === undefined) return target;
  const from = Object(source);
  for (const key of Reflect.ownKeys(from)) {
    if (excluded.includes(key) || !Object.prototype.propertyIsEnumerable.call(from, key)) continue;
    Object.defineProperty(target, key, { value: from[key], configurable: true, enumerable: true, writable: true });
  }
  return target;
}

/**
 * A context, whose `u` takes a resource into use, or null or undefined, and whose `d` disposes of those taken, the last first. What the `try`
 * threw is set as its `e`, and thrown again by `d`, in a SuppressedError if a disposal throws, too.
 */
function usingCtx() {
  const none = {};
  const resources = [];
  return {
    e: none,
    u(value) {
      if (value === null || value === undefined) return value;
      const dispose = value[Symbol.dispose];
      if (typeof dispose !== 'function') throw new TypeError('a value that is used has no method Symbol.dispose');
      resources.push({ value, dispose });
      return value;
    },
    d() {
      let error = this.e;
      while (resources.length > 0) {
        const { value, dispose } = resources.pop();
        try {
          dispose.call(value);
        } catch (thrown) {
          error = error === none ? thrown : suppressedError(thrown, error);
        }
      }
      if (error !== none) throw error;
    },
  };
}

function suppressedError(error, suppressed) {
  const message = 'An error was suppressed during disposal.';
  if (typeof SuppressedError === 'function') return new SuppressedError(error, suppressed, message);
  return Object.assign(new Error(message), { name: 'SuppressedError', error, suppressed });
}
