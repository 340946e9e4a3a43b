// compare.mjs PAGE PROGRAM EXAMPLES RUNS SEED: runs the examples of the program's pages, and random runs, by the page
// and by the program, and compares out, err and status, byte for byte.
import { spawnSync } from 'node:child_process';
import { mkdtempSync, readFileSync, rmSync, writeFileSync } from 'node:fs';
import { tmpdir } from 'node:os';
import { join, resolve } from 'node:path';
import { pathToFileURL } from 'node:url';
import { openPage } from './chromium.mjs';
import { generator, randomRun } from './random_runs.mjs';

const [pageFile, programFile, examplesFile, runs, seed] = process.argv.slice(2);
const program = resolve(programFile);

// What the program gives for a run.
function byProgram({ words, files, input }) {
  const folder = mkdtempSync(join(tmpdir(), 'page-run-'));
  for (const { name, bytes } of files) writeFileSync(join(folder, name), bytes);
  const ran = spawnSync(program, words, { cwd: folder, input, maxBuffer: 2 ** 30, timeout: 120000 });
  rmSync(folder, { recursive: true });
  if (ran.status === null) throw new Error(`the program ended without a status: ${words.join(' ')}`);
  return { status: ran.status, out: ran.stdout.toString('base64'), err: ran.stderr.toString('base64') };
}

// What the page gives, by the runner that its views use.
async function byPage(page, { words, files, input }) {
  const request = {
    words, input: input.toString('base64'),
    files: files.map(({ name, bytes }) => ({ name, bytes: bytes.toString('base64') })),
  };
  return page.value(`(async request => {
    const bytes = text => Uint8Array.from(atob(text), character => character.charCodeAt(0));
    const text = bytes => {
      let made = '';
      for (let at = 0; at < bytes.length; at += 30000) made += String.fromCharCode(...bytes.subarray(at, at + 30000));
      return btoa(made);
    };
    const files = request.files.map(({ name, bytes: text }) => ({ name, bytes: bytes(text) }));
    const { answer, fault } = await tool.run(request.words, bytes(request.input), files);
    return answer ? { status: answer.status, out: text(answer.out), err: text(answer.err) } : { fault };
  })(${JSON.stringify(request)})`);
}

function shown(answer) {
  const text = part => Buffer.from(answer[part], 'base64').toString();
  return answer.fault ?? `status ${answer.status}, out ${JSON.stringify(text('out').slice(0, 300))}, `
    + `err ${JSON.stringify(text('err').slice(0, 200))}`;
}

const isSame = (a, b) => a.status === b.status && a.out === b.out && a.err === b.err;

const page = await openPage(pathToFileURL(pageFile).href);
let failed = 0;
const fail = text => { failed++; console.log(text); };

const examples = JSON.parse(readFileSync(examplesFile, 'utf8'));
for (const { at, words, files, in: input, out, err, status } of examples) {
  const run = { words, input: Buffer.from(input),
    files: Object.entries(files).map(([name, text]) => ({ name, bytes: Buffer.from(text) })) };
  const wanted = { status, out: Buffer.from(out).toString('base64'), err: Buffer.from(err).toString('base64') };
  const [native, web] = [byProgram(run), await byPage(page, run)];
  if (!isSame(web, native)) fail(`${at}: the page gives ${shown(web)}, the program ${shown(native)}`);
  if (!isSame(web, wanted)) fail(`${at}: the page gives ${shown(web)}, the text has ${shown(wanted)}`);
}
console.log(`examples: ${examples.length} runs`);

const random = generator(Number(seed)), statuses = {}, modes = {};
const listOf = files => Buffer.from(byProgram({
  words: ['--list-errors', ...files.map(({ name }) => name)], files, input: Buffer.alloc(0),
}).out, 'base64').toString();
for (let at = 0; at < Number(runs); at++) {
  const run = randomRun(random, listOf);
  const [native, web] = [byProgram(run), await byPage(page, run)];
  statuses[native.status] = (statuses[native.status] ?? 0) + 1;
  modes[run.words[0]] = (modes[run.words[0]] ?? 0) + (native.status === 0);
  if (isSame(web, native)) continue;
  fail(`random run ${at}, ${JSON.stringify(run.words)}: the page gives ${shown(web)}, the program ${shown(native)}`);
}
console.log(`random runs: ${runs} with the seed ${seed}; runs by status: ${JSON.stringify(statuses)}; `
  + `runs with status 0 by mode: ${JSON.stringify(modes)}`);
for (const fault of page.faults) fail(`the page reports: ${fault}`);
await page.close();
console.log(failed ? `compare: ${failed} differ` : 'compare: all are equal');
process.exit(failed ? 1 : 0);
