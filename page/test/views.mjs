// views.mjs PAGE PROGRAM GRAMMARS PICTURES: uses each view of the page as a user does, by keys and clicks, tests what
// is shown, and writes a picture of each view at two widths.
import { spawnSync } from 'node:child_process';
import { mkdirSync, mkdtempSync, readFileSync, readdirSync, rmSync, statSync, writeFileSync } from 'node:fs';
import { tmpdir } from 'node:os';
import { basename, join, resolve } from 'node:path';
import { pathToFileURL } from 'node:url';
import { openPage, pause } from './chromium.mjs';

const [pageFile, programFile, grammars, pictures] = process.argv.slice(2);
const program = resolve(programFile), folder = mkdtempSync(join(tmpdir(), 'page-views-'));
mkdirSync(pictures, { recursive: true });
const page = await openPage(pathToFileURL(pageFile).href);
await page.send('Browser.setDownloadBehavior', { behavior: 'allow', downloadPath: folder });

let failed = 0, passed = 0;
function check(what, holds, seen = '') {
  if (holds) passed++;
  else {
    failed++;
    console.log(`${what}: does not hold ${seen}`);
  }
}

const idle = () => page.until('!tool.runner.isBusy', 120);
const text = selector => page.value(`document.querySelector(${JSON.stringify(selector)}).textContent`);
const click = selector => page.value(`document.querySelector(${JSON.stringify(selector)}).click()`);
const type = (selector, value) => page.value(`(field => {
  field.focus();
  field.value = ${JSON.stringify(value)};
  field.dispatchEvent(new Event('input', { bubbles: true }));
  field.dispatchEvent(new Event('change', { bubbles: true }));
})(document.querySelector(${JSON.stringify(selector)}))`);
const widths = { 1600: 1000, 1000: 800 };

async function take(name) {
  for (const [width, height] of Object.entries(widths)) {
    await page.resize(Number(width), height);
    await pause(150);
    await page.picture(join(pictures, `${name}-${width}.png`));
    const over = await page.value('document.documentElement.scrollWidth - innerWidth');
    check(`${name} at ${width} pixels fits its width`, over <= 0, `by ${over} pixels`);
  }
  await page.resize(1600, 1000);
}

async function load(selector, ...files) {
  const { root } = await page.send('DOM.getDocument');
  const { nodeId } = await page.send('DOM.querySelector', { nodeId: root.nodeId, selector });
  await page.send('DOM.setFileInputFiles', { nodeId, files });
  const names = files.map(file => basename(file));
  await page.until(`${JSON.stringify(names)}.every(name => tool.files.named(name))`);
}

async function saved(name) {
  const file = join(folder, name);
  for (let wait = 0; wait < 100; wait++) {
    if (readdirSync(folder).includes(name) && statSync(file).size > 0) break;
    await pause(50);
  }
  return readFileSync(file);
}

function write(name, content) {
  writeFileSync(join(folder, name), content);
  return join(folder, name);
}

const native = (words, input = '') => spawnSync(program, words, { cwd: folder, input, maxBuffer: 2 ** 30 });

// Files and runs.
await page.press('Enter', { ctrl: true });
await idle();
check('the first run', /^Status 0: done/.test(await text('#status')), await text('#status'));
const calc = write('calc.mly', await page.value("byId('text').value"));
const sentences = await page.value("byId('input').value");
check('out of the first run',
  await text('#out') === native(['--interpret', '--interpret-show-cst', 'calc.mly'], sentences).stdout.toString());
await take('run');

await type('#words', '--interpret none.mly');
await page.press('Enter', { text: '\r' });
await idle();
check('the words as typed', await text('#err') === 'menhir: cannot read none.mly\n', await text('#err'));
check('a status that is not 0', /^Status 3: a file or the input cannot be read/.test(await text('#status')));
await click('#words-menu');

// A file with CR LF and with a byte that is not UTF-8 is read byte for byte, until its text is edited.
const odd = Buffer.concat([Buffer.from('%token A EOF\r\n%start <unit> s\r\n%% (* '), Buffer.from([255]),
  Buffer.from(' *)\r\ns: A EOF {}\r\n')]);
await load('#file-picker', write('odd.mly', odd));
check('the note on such a file', !await page.value("byId('text-note').hidden"));
check('the use of a loaded file', await page.value("tool.files.named('odd.mly').use") === 'grammar');
await click('#file-save');
rmSync(join(folder, 'odd.mly'));
check('the bytes of such a file', (await saved('odd.mly')).equals(odd));
await page.value("tool.files.remove(tool.files.named('odd.mly'))");

// A messages file among the files: the menu of each mode gives words that the program takes.
write('m', 's: EOF\n\nExpected A.\n');
write('n', 's: EOF\n\nExpected A.\n');
write('t.tables', native(['--write-tables', 'calc.mly']).stdout);
await load('#file-picker', join(folder, 'm'), join(folder, 'n'), join(folder, 't.tables'));
await page.value("tool.files.named('m').use = tool.files.named('n').use = 'messages'; tool.files.onchange(); 0");
for (const mode of await page.value('MODES.map(({ word }) => word)')) {
  await page.value(`byId('mode').value = '${mode}'; byId('mode').onchange(); 0`);
  await page.press('Enter', { ctrl: true });
  await idle();
  await page.until("byId('status').textContent !== 'Running…'");
  const status = await text('#status'), words = await page.value("byId('words').value");
  check(`the menu's words of ${mode}`, /^Status [01]/.test(status), `${words}: ${status}`);
}
await page.value("for (const name of ['m', 'n', 't.tables']) tool.files.remove(tool.files.named(name)); 0");
await page.value("byId('mode').value = '--interpret'; byId('mode').onchange(); 0");

// Errors: the table is filled in, checked and saved.
await click('nav [data-view=errors]');
await page.press('Enter', { ctrl: true });
await idle();
const listed = native(['--list-errors', '--comment-expected', 'calc.mly']).stdout.toString();
check('the table as a file is the list', await page.value('writeMessages(tool.errorsView.messages)') === listed);
const rows = await page.value("byId('errors').tBodies[0].rows.length");
check('a row for each entry', rows === (listed.match(/^## Ends in an error/gm) ?? []).length && rows > 3, rows);
await take('errors-empty');
await click('#messages-check');
await idle();
check('the check of an empty table', (await text('#check-out')).includes('no message yet'));
await page.value("document.querySelector('#errors textarea').focus()");
for (let row = 0; row < rows; row++) {
  await page.send('Input.insertText', { text: `Message ${row}.\nIts second line.` });
  if (row + 1 < rows) await page.value(`document.querySelectorAll('#errors textarea')[${row + 1}].focus()`);
}
const count = () => text('#errors-status');
check('the count of messages', /, 0 without a message$/.test(await count()), await count());
await click('#messages-check');
await idle();
const result = await text('#check-out');
check('the check of a whole table', result === 'Nothing is wrong with this file.', result);
await take('errors');
await click('#messages-save');
write('parser.messages.copy', await saved('parser.messages'));
const checked = native(['--check-errors', 'parser.messages', 'calc.mly']);
check('the saved file is checked by the program', checked.status === 0 && checked.stdout.length === 0, checked.stdout);
await type('#errors textarea', 'One.\n\nTwo.');
check('a blank line in a message', await page.value("byId('messages-save').disabled"));
await take('errors-fault');
await type('#errors textarea', '# a comment');
check('a comment in place of a message', await page.value("byId('messages-save').disabled"));
await type('#errors textarea', 'Message 0.');
await click('#messages-keep');
check('the file among the files', await page.value("tool.files.named('parser.messages').use") === 'messages');
await page.value("tool.errorsView.isUnsaved = false; tool.isEdited = false; tool.runView.setExample(EXAMPLES[1]); 0");
await page.value("tool.choose('errors')");
await click('#rebase');
await idle();
check('the rebase', await count() === '3 entries kept or listed, 2 without a message', await count());
const dropped = await text('#dropped pre');
check('the dropped sentences', dropped.startsWith('# dropped 1: unknown token EOF\n# Expected A.'), dropped);
await take('errors-rebased');

// The automaton: the picture by keys, and a walk.
await page.value('tool.runView.setExample(EXAMPLES[0]); 0');
await click('nav [data-view=automaton]');
await page.press('Enter', { ctrl: true });
await idle();
await page.until('tool.automatonView.automaton !== null');
const boxes = await page.value("document.querySelectorAll('#picture .box').length");
const head = native(['--show-automaton', 'calc.mly']).stdout.toString().split('\n')[0];
check('a box for each state', head === `merged: ${boxes} states`, `${head}, ${boxes} boxes`);
await page.value("document.querySelector('#picture .box').focus()");
await page.press('ArrowRight');
await page.press('ArrowDown');
await page.press('Enter');
const chosen = await page.value('tool.automatonView.chosen'), title = await text('#state-details h3');
check('the keys in the picture', chosen !== 0 && title.startsWith(`State ${chosen},`), title);
await take('automaton');
await page.value("byId('sentence').focus()");
await page.press('Enter', { text: '\r' });
await page.until('tool.automatonView.steps.length > 0');
await idle();
const steps = await page.value('tool.automatonView.steps.map(({ command, answer }) => [command, answer])');
const session = native(['--session', 'calc.mly'], steps.map(([command]) => command + '\n').join('')).stdout.toString();
check('the steps are those of a session', steps.map(([, answer]) => answer + '\n').join('') === session, session);
check('the last step accepts', steps.at(-1)[1] === 'a accepted');
for (let step = 0; step < 9; step++) await click('#walk-next');
check('the place of a step', (await text('#walk-place')).startsWith('step 10 of'));
check('a step chooses its state', await page.value('tool.automatonView.steps[9].state === tool.automatonView.chosen'));
await take('walk');
await type('#sentence', 'INT PLUS');
await click('#walk');
const lastStack = symbols => page.until(`tool.automatonView.steps.at(-1)?.stack.join(' ') === '${symbols}'`);
await lastStack('e PLUS');
await click('#walk-last');
await page.until("byId('walk-expected').textContent.includes('INT')");
await click('#walk-expected button');
await lastStack('e PLUS t');
check('an expected token goes on', await page.value("byId('sentence').value") === 'INT PLUS INT');
await page.value("byId('picture-kind').value = 'one'; byId('picture-kind').onchange(); 0");
await take('neighbours');
await type('#sentence', 'INT RP');
await click('#walk');
await page.until("tool.automatonView.steps.at(-1)?.phase === 'rejected'");
check('a refused sentence', true);

// A conflict, and two files.
await page.value("tool.runView.setExample(EXAMPLES[2]); tool.choose('run')");
await page.press('Enter', { ctrl: true });
await idle();
check('a warning on err', await text('#err') === 'menhir: warning: conflict in state 8 on ELSE\n', await text('#err'));
await take('explain');
await page.value("tool.runView.setExample(EXAMPLES[3]); tool.choose('run')");
await page.press('Enter', { ctrl: true });
await idle();
await page.until("byId('status').textContent !== 'Running…'");
check('two files', /^ACCEPT\n\[.*\nACCEPT\n\[.*\nREJECT\n$/.test(await text('#out')), await text('#out'));
await page.value("tool.choose('automaton')");
await page.press('Enter', { ctrl: true });
await idle();
await take('automaton-lists');

// A large grammar.
await load('#file-picker', resolve(grammars, 'lua/lua.mly'));
await page.value("for (const file of [...tool.files.list]) if (file.name !== 'lua.mly') tool.files.remove(file); 0");
await page.value("tool.choose('automaton')");
await page.press('Enter', { ctrl: true });
await page.until('tool.automatonView.automaton?.states.length > 100', 60);
await page.value('tool.automatonView.choose(3)');
await take('large');
await click('nav [data-view=errors]');
await page.press('Enter', { ctrl: true });
await idle();
await page.until("/entries listed/.test(byId('errors-status').textContent)", 60);
write('lua.mly', readFileSync(resolve(grammars, 'lua/lua.mly')));
const wanted = native(['--list-errors', '--comment-expected', 'lua.mly']).stdout.toString();
check('the table of a large grammar', await page.value('writeMessages(tool.errorsView.messages)') === wanted);
await take('large-errors');

// A limit of memory: status 6 is shown as such.
await page.value("tool.choose('run')");
await type('#limit', '12');
await type('#words', '--list-errors lua.mly');
await page.press('Enter', { ctrl: true });
await idle();
await page.until("byId('status').textContent !== 'Running…'");
const limited = await text('#status');
check('status 6', limited.startsWith('Status 6: memory ran out (the limit is 12.0 MiB)'), limited);
check('the line on err', (await text('#err')).endsWith('menhir: out of memory\n'), await text('#err'));
await take('limit');
await type('#limit', '1024');
await page.press('Enter', { ctrl: true });
await idle();
await page.until("byId('status').textContent !== 'Running…'");
check('the same run with more memory', /^Status 0/.test(await text('#status')), await text('#status'));

// A stop in the middle of a long run, on a grammar with 131,000 states.
const rules = Array.from({ length: 15 }, (_, at) => `q${at + 1}: A q${at + 2} {} | B q${at + 2} {}\n`);
const long = `%token A B\n%start <unit> q0\n%%\nq0: A q0 {} | B q0 {} | A q1 {}\n${rules.join('')}q16: A {} | B {}\n`;
await load('#file-picker', write('long.mly', long));
await type('#limit', '4096');
await type('#words', '--list-errors long.mly');
await page.press('Enter', { ctrl: true });
await pause(700);
check('a long run goes on', /^running, \d/.test(await text('#state')), await text('#state'));
check('the page answers during a run', await page.value("byId('stop').disabled") === false);
await take('running');
const begun = Date.now();
await page.press('Escape');
await page.until("/^stopped after/.test(byId('state').textContent)");
check('a stop takes less than a second', Date.now() - begun < 1000, Date.now() - begun);
check('the answer of a stopped run', (await text('#status')).startsWith('Stopped.'), await text('#status'));
await take('stopped');
await type('#words', '--sample 0');
await page.press('Enter', { ctrl: true });
await idle();
await page.until("/^sample 0: /.test(byId('out').textContent)");
await type('#limit', '1024');
check('a run after a stop', await text('#out') === native(['--sample', '0']).stdout.toString());

await click('nav [data-view=about]');
await take('about');
check('the paragraph on proofs', (await text('#not-proved')).includes('outside of what is proved'));
const outside = page.requests.filter(url => !/^(file|blob|data):/.test(url));
check('no request', outside.length === 0, outside.join(' '));
check('no fault in the page', page.faults.length === 0, page.faults.join('; '));
await page.close();
rmSync(folder, { recursive: true });
console.log(`views: ${passed} passed, ${failed} failed; pictures are in ${pictures}`);
process.exit(failed ? 1 : 0);
