#!/usr/bin/env node
// Lowers a JavaScript file: parser, tool and printer in one. Notes name the file's lines beside the tree's nodes.
//   lower.mjs FILE.js [--module] [WORDS..]
import { spawnSync } from 'node:child_process';
import fs from 'node:fs';
import { fileURLToPath } from 'node:url';
import { canonicalText, nodes, read } from './lib/form.mjs';
import { isMain, runMain } from './lib/main.mjs';
import { place } from './lib/parsers.mjs';
import { splitHashbang, textToTree } from './lib/texts.mjs';
import { print } from './print.mjs';

const TOOL = fileURLToPath(new URL('../../lower', import.meta.url));

/** What the tool says of a file: its status, the lowered text and the notes. A hashbang line stays in front. */
export function lower(path, { module, words }) {
  const { hashbang, text } = splitHashbang(fs.readFileSync(path, 'utf8'));
  const tree = textToTree(text, { module: module || path.endsWith('.mjs'), path });
  const { status, stdout, stderr, error } = spawnSync(TOOL, words, { input: canonicalText(tree), encoding: 'utf8', maxBuffer: Infinity });
  if (error && error.code !== 'EPIPE') throw new Error(`the tool ${TOOL} can't be started: ${error.message}`);
  const isLowered = status === 0 && stdout.startsWith('{');
  const lowered = isLowered ? (hashbang && `${hashbang}\n`) + print(read(JSON.parse(stdout))) : stdout;
  return { status, lowered, notes: stderr.replace(/.+/g, note => note + placeOf(note, path, text, tree)) };
}

/** Where in the file a note's node or span stands, in parentheses; nothing for a note without one. */
function placeOf(note, path, text, tree) {
  const [, id] = note.match(/ at node (\d+)$/) ?? [];
  const [, start] = note.match(/ at (\d+)\.\.\d+$/) ?? [];
  const node = id && nodes(tree)[Number(id)];
  if (!node && !start) return '';
  return ` (${place(text, node ? node.start : Number(start), path)}${node ? `, ${node.type}` : ''})`;
}

if (isMain(import.meta.url)) runMain(() => {
  const [path, ...rest] = process.argv.slice(2);
  if (path === undefined || path.startsWith('--')) throw new Error('wanted: FILE.js [--module] [WORDS..]');
  const { status, lowered, notes } = lower(path, { module: rest.includes('--module'), words: rest.filter(word => word !== '--module') });
  process.stderr.write(notes);
  process.stdout.write(lowered);
  process.exitCode = status ?? 1;
});
