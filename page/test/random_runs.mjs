// Random grammars, messages files, words and inputs, from a seed. Some are damaged on purpose.

// The generator mulberry32: the same seed gives the same runs on every machine.
export function generator(seed) {
  let state = seed >>> 0;
  const next = () => {
    state = (state + 0x6D2B79F5) >>> 0;
    let mixed = Math.imul(state ^ (state >>> 15), 1 | state);
    mixed = (mixed + Math.imul(mixed ^ (mixed >>> 7), 61 | mixed)) ^ mixed;
    return ((mixed ^ (mixed >>> 14)) >>> 0) / 2 ** 32;
  };
  const below = count => Math.floor(next() * count);
  return {
    below,
    chance: share => next() < share,
    of: list => list[below(list.length)],
    times: (least, most, make) => Array.from({ length: least + below(most - least + 1) }, (_, at) => make(at)),
  };
}

// A grammar of some tokens and rules, in one file or two.
function grammar(random) {
  const tokens = random.times(2, 7, at => `T${at}`).concat('EOF');
  const rules = random.times(1, 5, at => `r${at}`);
  const starts = random.chance(0.2) && rules.length > 1 ? rules.slice(0, 2) : [rules[0]];
  const cost = () => random.chance(0.15) ? ` [@cost ${1 + random.below(9)}]` : '';
  const alias = token => random.chance(0.1) ? ` "${token.toLowerCase()}"` : '';
  const head = tokens.map(token => `%token ${token}${alias(token)}${cost()}`);
  if (random.chance(0.1)) head.unshift('%token ILLEGAL');
  for (const how of ['left', 'right', 'nonassoc']) {
    if (random.chance(0.3)) head.push(`%${how} ${random.of(tokens)}`);
  }
  if (random.chance(0.3)) head.push(`%on_error_reduce ${random.of(rules)}`);
  const starting = starts.map(name => `%start <unit> ${name}`);
  const symbol = () => {
    const base = random.chance(0.55) ? random.of(tokens) : random.of(rules);
    const wrapped = random.below(24);
    if (wrapped === 0) return `option(${base})`;
    if (wrapped === 1) return `list(${base})`;
    if (wrapped === 2) return `separated_list(${random.of(tokens)}, ${base})`;
    if (wrapped === 3) return `${base}?`;
    return base;
  };
  const production = () => random.times(0, 4, symbol).join(' ') + ' {}';
  const body = name => {
    const end = starts.includes(name) && random.chance(0.7) ? ' EOF' : '';
    const mark = random.chance(0.05) && !starts.includes(name) ? '%inline ' : '%public ';
    const ways = random.times(1, 4, production).map(way => end ? way.replace(/ ?\{\}$/, `${end} {}`) : way);
    if (random.chance(0.7)) ways.push(random.of(tokens) + `${end} {}`);
    return `${mark}${name}: ${ways.join(' | ')}`;
  };
  const bodies = rules.map(body);
  if (random.chance(0.2)) {
    return { tokens, rules, starts, files: [
      { name: 'tokens.mly', text: [...head, '%%', ''].join('\n') },
      { name: 'rules.mly', text: [...starting, '%%', ...bodies, ''].join('\n') },
    ] };
  }
  const text = [...head, ...starting, '%%', ...bodies, ''].join('\n');
  return { tokens, rules, starts, files: [{ name: 'g.mly', text }] };
}

function sentence(random, { tokens, starts }) {
  const words = random.times(0, 8, () => random.of(tokens));
  if (random.chance(0.5)) words.push('EOF');
  if (random.chance(0.05)) words.push(random.of(['UNKNOWN', '=', '"+"', 'é']));
  const start = starts.length > 1 || random.chance(0.3) ? `${random.of(starts)}: ` : '';
  return start + words.join(random.chance(0.05) ? '\t' : ' ');
}

function commands(random, { tokens, starts }) {
  const name = () => random.of(['a', 'b', 'c']), token = () => random.of(tokens);
  const command = () => random.of([
    () => `offer ${name()} ${token()}`, () => `resume ${name()}`, () => `resume ${name()}`,
    () => `feed ${name()} ${random.times(1, 4, token).join(' ')}`, () => `fork ${name()} ${name()}`,
    () => `forget ${name()}`, () => `show ${name()}`, () => `stack ${name()}`, () => `expected ${name()}`,
    () => `tree ${name()}`, () => `begin ${name()} ${random.of(starts)}`, () => 'nonsense',
  ])();
  return [`begin a ${starts[0]}`, ...random.times(3, 25, command)].join('\n') + '\n';
}

function messagesFile(random, found) {
  const entry = () => {
    const sentences = random.times(1, 2, () => sentence(random, found)).join('\n');
    const message = random.chance(0.2) ? '<YOUR SYNTAX ERROR MESSAGE HERE>' : `Message ${random.below(100)}.`;
    const comment = random.chance(0.2) ? '# my comment\n' : random.chance(0.1) ? '## old\n' : '';
    return `${sentences}\n${comment}\n${message}\n`;
  };
  return random.times(0, 5, entry).join('\n') + (random.chance(0.05) ? 'a b\n' : '');
}

// Writes messages over some placeholders of a list of errors, and leaves some entries out.
function writtenList(random, list) {
  const entries = list.split(/(?<=HERE>\n\n)/).filter(() => random.chance(0.9));
  const written = entry => entry.replace(/<YOUR.*>/, `Message ${random.below(100)}.`);
  return entries.map(entry => random.chance(0.8) ? written(entry) : entry).join('');
}

// Changes some bytes of a text.
function damaged(random, bytes) {
  const changed = Buffer.from(bytes);
  for (let count = 1 + random.below(4); changed.length && count > 0; count--) {
    changed[random.below(changed.length)] = random.of([0, 10, 13, 32, 34, 35, 37, 58, 92, 123, 125, 128, 255, 65]);
  }
  return changed;
}

const MODES = ['--interpret', '--interpret', '--interpret-error', '--list-errors', '--check', '--check-errors',
  '--compile-errors', '--rebase-errors', '--update-errors', '--compare-errors', '--echo-errors', '--explain',
  '--show-automaton', '--write-tables', '--shortest-sentences', '--random-sentence', '--session', '--session'];

// One run: words, files (each with name and bytes) and input. `listOf` gives the list of errors of a grammar; many of
// the messages files are made from such a list.
export function randomRun(random, listOf) {
  const found = grammar(random), mode = random.of(MODES);
  const files = found.files.map(({ name, text }) => ({ name, bytes: Buffer.from(text) }));
  const list = random.chance(0.6) ? listOf(files) : '';
  for (const name of ['m', 'n']) {
    files.push({ name, bytes: Buffer.from(list ? writtenList(random, list) : messagesFile(random, found)) });
  }
  const words = [mode];
  if (/^--(check|compile|rebase|update|compare|echo)-errors$/.test(mode)) words.push('m');
  if (mode === '--compare-errors') words.push(mode, 'n');
  if (mode === '--random-sentence') words.push(String(random.below(1e9)), '--length', String(random.below(60)));
  if (mode === '--interpret') {
    if (random.chance(0.5)) words.push('--interpret-show-cst');
    if (random.chance(0.3)) words.push('--messages', 'm');
    else if (random.chance(0.3)) words.push('--show-expected');
  }
  if (/^--(list|update|rebase)-errors$|^--interpret-error$/.test(mode) && random.chance(0.4)) {
    words.push('--comment-expected');
  }
  if (random.chance(0.2)) words.push('--canonical');
  if (random.chance(0.1)) words.push('--strict');
  if (random.chance(0.05)) words.push('--no-stdlib');
  if (random.chance(0.03)) words.push(random.of(['--help', '--messages', '--tables', 'none.mly', '--length', '']));
  words.push(...found.files.map(({ name }) => name));
  if (random.chance(0.03)) words.splice(random.below(words.length), 1);
  const line = () => sentence(random, found) + (random.chance(0.05) ? '\r\n' : '\n');
  const lines = random.times(0, 6, line);
  let input = Buffer.from(mode === '--session' ? commands(random, found) : lines.join(''));
  if (random.chance(0.1)) input = damaged(random, input);
  if (random.chance(0.1)) {
    const file = random.of(files);
    file.bytes = damaged(random, file.bytes);
  }
  return { words, files, input };
}
