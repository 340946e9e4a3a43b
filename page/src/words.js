// The words of the command line: the modes and options that the menu offers, and the words as typed.

// `needs` names what a mode takes beside the grammar; `options` the options that go with the mode.
const MODES = [
  { word: '--interpret', text: 'judge sentences (a line each)', group: 'Sentences',
    options: ['tree', 'messages', 'expected'], reads: 'sentences, a line each' },
  { word: '--interpret-error', text: 'the entry for one sentence', group: 'Sentences',
    options: ['comments'], reads: 'one sentence' },
  { word: '--session', text: 'a session of commands', group: 'Sentences', options: [], reads: 'commands, a line each' },
  { word: '--list-errors', text: 'list all errors', group: 'Messages', options: ['comments'] },
  { word: '--check-errors', text: 'check a messages file', group: 'Messages', needs: ['file'], options: [] },
  { word: '--compile-errors', text: 'compile a messages file', group: 'Messages', needs: ['file'], options: [] },
  { word: '--rebase-errors', text: 'carry messages over to this grammar', group: 'Messages', needs: ['file'],
    options: ['comments'] },
  { word: '--update-errors', text: 'write new comment lines', group: 'Messages', needs: ['file'],
    options: ['comments'] },
  { word: '--compare-errors', text: 'compare two messages files', group: 'Messages', needs: ['file', 'second'],
    options: [] },
  { word: '--echo-errors', text: 'only the sentences of a messages file', group: 'Messages', needs: ['file'],
    options: [] },
  { word: '--check', text: 'check the grammar files', group: 'Grammar', options: [] },
  { word: '--explain', text: 'explain conflicts', group: 'Automaton', options: [] },
  { word: '--show-automaton', text: 'the automaton as text', group: 'Automaton', options: [] },
  { word: '--write-tables', text: 'write a table file', group: 'Automaton', options: [] },
  { word: '--shortest-sentences', text: 'shortest word of each nonterminal', group: 'Words', options: [] },
  { word: '--random-sentence', text: 'a random sentence', group: 'Words', needs: ['seed', 'length'], options: [] },
  { word: '--sample', text: 'measure the speed, without a grammar', group: 'Words', needs: ['size'], options: [] },
];

// The words that the menu's choice stands for. `choice` has the mode, the values of the fields, and the grammar files.
function wordsOf(choice) {
  const { mode } = choice, words = [mode.word];
  const needs = mode.needs ?? [], takes = option => mode.options.includes(option) && choice[option];
  if (needs.includes('file')) words.push(choice.file);
  if (needs.includes('second')) words.push(mode.word, choice.second);
  if (needs.includes('seed')) words.push(choice.seed);
  if (needs.includes('length')) words.push('--length', choice.length);
  if (needs.includes('size')) return [...words, choice.size];
  if (takes('tree')) words.push('--interpret-show-cst');
  if (takes('messages')) words.push('--messages', choice.messages);
  if (takes('expected') && !takes('messages')) words.push('--show-expected');
  if (takes('comments')) words.push('--comment-expected');
  if (choice.strict) words.push('--strict');
  if (choice.noPrelude) words.push('--no-stdlib');
  words.push(...automatonWords(choice));
  const names = choice.grammar.some(name => name.startsWith('-')) ? ['--', ...choice.grammar] : choice.grammar;
  return [...words, ...names];
}

// The words that choose the automaton: merged, canonical, or from a table file.
function automatonWords({ canonical, tables }) {
  if (tables) return ['--tables', tables];
  return canonical ? ['--canonical'] : [];
}

// Writes words as one line. A word with a blank, a quote or a backslash is quoted as in a shell.
function lineOfWords(words) {
  return words.map(word => /^[^\s'"\\]+$/.test(word) ? word : `'${word.replaceAll("'", "'\\''")}'`).join(' ');
}

// Splits a line into words, as a shell does: '..' and ".." hold blanks, and a backslash takes the next character as it
// is. Nothing else is special.
function splitLine(line) {
  const words = [];
  let word = null, quote = null;
  for (let at = 0; at < line.length; at++) {
    const character = line[at];
    if (quote) {
      if (character === quote) quote = null;
      else if (quote === '"' && character === '\\' && '"\\'.includes(line[at + 1] ?? ' ')) word += line[++at];
      else word += character;
    } else if (/\s/.test(character)) {
      if (word !== null) words.push(word);
      word = null;
    } else {
      word ??= '';
      if (character === "'" || character === '"') quote = character;
      else if (character === '\\' && at + 1 < line.length) word += line[++at];
      else word += character;
    }
  }
  if (word !== null) words.push(word);
  return words;
}
