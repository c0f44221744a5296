// The parsers, where they are installed: acorn, and @babel/parser for what acorn doesn't read.
import { createRequire } from 'node:module';
import { extendedParser } from './acorn-parser.mjs';

const DEBIAN_MODULES = '/usr/share/nodejs';
const NONE = 'no parser is installed: wanted is acorn or @babel/parser (Debian: node-acorn)';

const acorn = installed('acorn');
const babel = installed('@babel/parser');
const acornParser = acorn && extendedParser(acorn);
const goingOnParser = acorn && extendedParser(acorn, { mayBeInvalid: true });
const attributesPlugin = babel && pluginForAttributes();

export const hasParser = acorn !== undefined || babel !== undefined;
export const hasBabel = babel !== undefined;

/** No parser that is installed reads a text. */
export class NotParsed extends Error {}

/**
 * The ESTree program of a text, with parentheses as nodes. With `mayBeInvalid` early errors are passed over, as far as
 * these parsers can. Errors name the place, in the file at `path`.
 */
export function parse(text, { module = false, mayBeInvalid = false, path } = {}) {
  const sourceType = module ? 'module' : 'script';
  const parsers = [
    acorn && parseWithAcorn, babel && parseWithBabel,
    mayBeInvalid && acorn && parseInvalidWithAcorn, mayBeInvalid && babel && parseInvalidWithBabel,
  ].filter(Boolean);
  if (parsers.length === 0) throw new Error(NONE);
  let furthest;
  for (const parser of parsers) {
    try {
      return parser(text, sourceType);
    } catch (error) {
      if (!(error instanceof SyntaxError)) throw error;
      if (furthest === undefined || error.pos > furthest.pos) furthest = error;
    }
  }
  throw new NotParsed(`${place(text, furthest.pos, path)}: ${furthest.message.replace(/ \(\d+:\d+\)$/, '')}`);
}

/** An offset as the file's path, line and column, these counted from 1. */
export function place(text, offset, path) {
  const lines = text.slice(0, offset).split(/\r\n|[\n\r\u2028\u2029]/);
  return [...(path === undefined ? [] : [path]), lines.length, lines.at(-1).length + 1].join(':');
}

function parseWithAcorn(text, sourceType, parser = acornParser) {
  return parser.parse(text, { ecmaVersion: 'latest', sourceType, preserveParens: true });
}

function parseInvalidWithAcorn(text, sourceType) {
  return parseWithAcorn(text, sourceType, goingOnParser);
}

/** Older versions of @babel/parser read `assert` in place of `with`: where they stop at a `with`, it is replaced. */
function parseWithBabel(text, sourceType, errorRecovery = false) {
  const plugins = [['estree', { classFeatures: true }], 'explicitResourceManagement', attributesPlugin];
  const replaced = [];
  const originalOffset = offset => offset - 2 * replaced.filter(place => place < offset).length;
  for (let readable = text; ;) {
    try {
      const { program } = babel.parse(readable, { sourceType, createParenthesizedExpressions: true, errorRecovery, plugins });
      return replaced.length === 0 ? program : withOffsets(program, originalOffset);
    } catch (error) {
      const attributes = attributesPlugin === 'importAssertions' && readable.slice(error.pos).match(/^\s*with(?=\s*\{)/);
      if (!attributes) throw Object.assign(error, { pos: originalOffset(error.pos) });
      const place = error.pos + attributes[0].length - 'with'.length;
      replaced.push(place);
      readable = `${readable.slice(0, place)}assert${readable.slice(place + 'with'.length)}`;
    }
  }
}

function pluginForAttributes() {
  try {
    babel.parse('import "a" with {};', { sourceType: 'module', plugins: ['importAttributes'] });
    return 'importAttributes';
  } catch {
    return 'importAssertions';
  }
}

/** The syntax tree with each offset changed. */
function withOffsets(value, change) {
  if (Array.isArray(value)) return value.map(item => withOffsets(item, change));
  if (typeof value !== 'object' || value === null) return value;
  const changed = (field, below) => field === 'start' || field === 'end' ? change(below) : withOffsets(below, change);
  return Object.fromEntries(Object.entries(value).map(([field, below]) => [field, changed(field, below)]));
}

function parseInvalidWithBabel(text, sourceType) {
  return parseWithBabel(text, sourceType, true);
}

/** A module, from a folder above this one or above the working folder, or of Debian's packages. */
function installed(name) {
  for (const from of [import.meta.url, `${process.cwd()}/`]) {
    try { return createRequire(from)(name); } catch { /* not there */ }
  }
  try { return createRequire(import.meta.url)(`${DEBIAN_MODULES}/${name}`); } catch { return undefined; }
}
