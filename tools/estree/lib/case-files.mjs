// The case files of crates/cases/data: a case's fields a line each, so that a change shows in a few lines.
import fs from 'node:fs';

export function readCaseFile(path) {
  return JSON.parse(fs.readFileSync(path, 'utf8'));
}

export function writeCaseFile(path, file) {
  fs.writeFileSync(path, caseFileText(file));
}

/** The text of a case file. */
export function caseFileText({ about, cases }) {
  const written = cases.map(item => `    {\n${lines(item).join(',\n')}\n    }`);
  const list = written.length === 0 ? '[]' : `[\n${written.join(',\n')}\n  ]`;
  return `{\n  "about": ${JSON.stringify(about)},\n  "cases": ${list}\n}\n`;
}

/** A line for each field; a list of texts has a space behind each comma. */
function lines(item) {
  const isTexts = value => Array.isArray(value) && value.every(text => typeof text === 'string');
  const text = value => isTexts(value) ? `[${value.map(item => JSON.stringify(item)).join(', ')}]` : JSON.stringify(value);
  return Object.entries(item).map(([field, value]) => `      ${JSON.stringify(field)}: ${text(value)}`);
}
