#!/usr/bin/env node
// Runs npm, as it comes with node, before and after the tool lowered the files of it that it takes: each of these commands has to print the
// same, end with the same status, and leave the same files. Nothing of it asks the network.
//   npm.mjs [--tool PROGRAM]
import { spawnSync } from 'node:child_process';
import fs from 'node:fs';
import os from 'node:os';
import path from 'node:path';
import { fileURLToPath } from 'node:url';

const NPM = path.join(path.dirname(process.execPath), '../lib/node_modules/npm');
const HELPERS = fileURLToPath(new URL('../estree/babel-helpers.cjs', import.meta.url));
const FOLDER = fileURLToPath(new URL('folder.mjs', import.meta.url));
const COMMANDS = [
  '--version', 'help', 'help-search config', 'completion', 'config list --json', 'get', 'root', 'prefix', 'init -y', 'pkg get', 'pkg set description=x',
  'version patch --no-git-tag-version', 'test', 'run', 'run build', 'ls --all --json', 'query .prod', 'explain foo', 'fund', 'pack --dry-run --json',
  'install --offline --no-audit', 'shrinkwrap', 'ci --offline', 'audit --offline', 'outdated', 'sbom --sbom-format cyclonedx', 'search foo --offline',
  'view foo --offline', 'org', 'badcommand',
];
const SAMPLE = {
  'package.json': '{"name":"sample","version":"1.2.3","license":"MIT","main":"a.js","scripts":{"test":"node a.js","build":"echo built"},"files":["a.js","lib"]}',
  'a.js': 'console.log("a ran");\n',
  'lib/x.js': '1;\n',
};

if (fs.existsSync(NPM)) main();
else console.log('tools/valid: passed over, npm isn\'t installed beside node');

function main() {
  const work = fs.mkdtempSync(path.join(os.tmpdir(), 'npm-'));
  try {
    const lowered = path.join(work, 'npm');
    const { status } = spawnSync(process.execPath, [FOLDER, NPM, '--into', lowered, ...process.argv.slice(2)], { stdio: 'inherit' });
    if (status !== 0) throw new Error('npm can\'t be lowered');
    const differing = COMMANDS.filter(words => !runAlike(work, lowered, words));
    console.log(`tools/valid: ${COMMANDS.length} commands of npm before and after, ${differing.length} differ`);
    process.exitCode = differing.length === 0 ? 0 : 1;
  } finally {
    fs.rmSync(work, { recursive: true });
  }
}

function runAlike(work, lowered, words) {
  const [before, after] = [NPM, lowered].map(npm => outcome(work, npm, words));
  if (before === after) return true;
  console.log(`npm ${words}:\n${before}\n  and lowered:\n${after}`);
  return false;
}

/** What a command prints, its status, and the files that it leaves, without its folder's name, times and numbers that are random. */
function outcome(work, npm, words) {
  const sample = path.join(work, 'sample');
  for (const [file, text] of Object.entries(SAMPLE)) {
    fs.mkdirSync(path.dirname(path.join(sample, file)), { recursive: true });
    fs.writeFileSync(path.join(sample, file), text);
  }
  const program = ['-r', HELPERS, path.join(npm, 'bin/npm-cli.js'), ...words.split(' ')];
  const env = { ...process.env, npm_config_cache: path.join(work, 'cache'), npm_config_update_notifier: 'false' };
  const { status, stdout, stderr } = spawnSync(process.execPath, program, { cwd: sample, env, encoding: 'utf8' });
  const left = fs.readdirSync(sample, { recursive: true }).sort().filter(file => fs.statSync(path.join(sample, file)).isFile());
  const files = left.map(file => `${file}: ${fs.readFileSync(path.join(sample, file), 'utf8')}`);
  fs.rmSync(sample, { recursive: true });
  return [`status ${status}`, stdout, stderr, ...files].join('\n').replaceAll(npm, 'NPM')
    .replace(/\d{4}-\d\d-\d\dT[\w:.]+(-debug-\d+\.log)?/g, 'TIME').replace(/\bin \d+m?s\b/g, 'in TIME').replace(/urn:uuid:[\da-f-]+/g, 'UUID');
}
