// The view of files and runs: the list of files with their texts, the menu of modes, and the answer beside them.

const MEANINGS = [
  'done', 'refused, or something was found', 'the command line is not valid', 'a file or the input cannot be read',
  'out or err cannot be written', 'a file or the input is too big', 'memory ran out',
];

// Longer outputs are shown up to this length. What is saved is whole.
const MOST_SHOWN = 400000;

// The text that says how a run ended.
function statusText({ status, milliseconds, used }, limit) {
  const meaning = MEANINGS[status] ?? 'unknown';
  const limited = status === 6 ? ` (the limit is ${mebibytes(limit)})` : '';
  const time = milliseconds === undefined ? '' : ` · ${milliseconds.toFixed(0)} ms · ${mebibytes(used)}`;
  return `Status ${status}: ${meaning}${limited}${time}`;
}

// Shows a line for how a run ended. A fault is a run without an answer.
function showStatus(place, text, isGood) {
  place.textContent = text;
  place.classList.toggle('good', isGood === true);
  place.classList.toggle('bad', isGood === false);
}

// Shows a text in a `pre`, cut where it is too long. Returns whether it was cut.
function showText(place, bytes) {
  const text = textOf(bytes.length > MOST_SHOWN ? bytes.slice(0, MOST_SHOWN) : bytes);
  place.textContent = text;
  return bytes.length > MOST_SHOWN;
}

class RunView {
  constructor(tool) {
    this.tool = tool;
    this.answer = null;
    this.inputBytes = null;
    this.wordsAreTyped = false;
    this.fields = {
      file: 'm', second: '', messages: '', seed: '7', length: '50', size: '0', tables: '',
      tree: true, expected: false, comments: false,
    };
    const groups = [...new Set(MODES.map(({ group }) => group))];
    byId('mode').append(...groups.map(label => element('optgroup', { label }, ...MODES
      .filter(({ group }) => group === label)
      .map(({ word, text }) => element('option', { value: word }, `${word.slice(2)}: ${text}`)))));
    byId('example').append(element('option', { value: '' }, 'choose…'),
      ...EXAMPLES.map(({ title }, at) => element('option', { value: at }, title)));
    this.listen();
  }

  get files() {
    return this.tool.files;
  }

  get mode() {
    return MODES.find(({ word }) => word === byId('mode').value);
  }

  listen() {
    byId('mode').onchange = () => this.chooseMode();
    for (const id of ['automaton-kind', 'strict', 'no-prelude']) byId(id).onchange = () => this.choiceChanged();
    byId('words').oninput = () => this.noteTyped(true);
    byId('words-menu').onclick = () => this.writeWords();
    byId('menu').onsubmit = event => { event.preventDefault(); this.run(); };
    byId('example').onchange = event => this.takeExample(event.target);
    byId('file-new').onclick = () => {
      this.files.put(this.files.freshName('new.mly'), new Uint8Array());
      byId('text').focus();
    };
    byId('file-load').onclick = () => byId('file-picker').click();
    byId('file-picker').onchange = event => this.load(event.target);
    byId('file-save').onclick = () => this.files.chosen && save(this.files.chosen.name, this.files.chosen.bytes);
    byId('text').oninput = () => {
      if (!this.files.chosen) this.files.put(this.files.freshName('new.mly'), new Uint8Array());
      this.files.chosen.bytes = utf8Of(byId('text').value);
      this.showNote();
      this.showSizes();
      this.tool.textsChanged();
    };
    byId('input-load').onclick = () => byId('input-picker').click();
    byId('input-picker').onchange = async event => {
      const [file] = event.target.files;
      if (!file) return;
      const bytes = new Uint8Array(await file.arrayBuffer());
      byId('input').value = textOf(bytes);
      this.inputBytes = isPlainText(bytes) ? null : bytes;
      event.target.value = '';
    };
    byId('input').oninput = () => { this.inputBytes = null; };
    byId('out-save').onclick = () => save(this.nameOfOut(), this.answer.out);
    byId('out-keep').onclick = () => {
      const name = prompt('Name of the file', this.files.freshName(this.nameOfOut()));
      if (name) this.files.put(name, this.answer.out);
    };
  }

  takeExample(menu) {
    const example = EXAMPLES[menu.value];
    menu.value = '';
    if (!example) return;
    if (this.tool.isEdited && !confirm('Replace the files and the input by the example?')) return;
    this.setExample(example);
  }

  setExample(example) {
    byId('mode').value = example.mode;
    byId('input').value = example.input;
    this.inputBytes = null;
    this.fields.messages = '';
    byId('sentence').value = example.sentence;
    this.files.replaceAll(example.files);
    this.tool.isEdited = false;
    this.chooseMode();
  }

  async load(picker) {
    for (const file of picker.files) {
      if (this.files.named(file.name) && !confirm(`Write over ${file.name}?`)) continue;
      this.files.put(file.name, new Uint8Array(await file.arrayBuffer()));
    }
    picker.value = '';
    this.tool.textsChanged();
  }

  // Shows the list of files, the text of the chosen one, and the words that follow from the list.
  showFiles() {
    const rows = this.files.list.map(file => {
      const isChosen = file === this.files.chosen;
      const use = element('select', { 'aria-label': `use of ${file.name}` },
        ...USES.map(([value, text]) => element('option', { value }, text)));
      use.value = file.use;
      use.onchange = () => { file.use = use.value; this.files.onchange(); };
      return element('tr', { class: isChosen ? 'chosen' : null },
        element('td', {}, button(file.name, () => this.files.choose(file),
          { class: 'name mono', 'aria-pressed': isChosen ? 'true' : 'false', title: `Shows ${file.name}` })),
        element('td', {}, use),
        element('td', {}, sizeText(file.bytes.length)),
        element('td', {},
          button('↑', () => this.files.raise(file), { title: 'Earlier', 'aria-label': `${file.name} earlier` }), ' ',
          button('✎', () => this.rename(file), { title: 'Renames the file', 'aria-label': `rename ${file.name}` }), ' ',
          button('×', () => this.remove(file), { title: 'Removes the file', 'aria-label': `remove ${file.name}` })));
    });
    keepFocus(byId('files').tBodies[0], () => byId('files').tBodies[0].replaceChildren(...rows));
    const { chosen } = this.files;
    byId('text').value = chosen ? textOf(chosen.bytes) : '';
    byId('text-label').textContent = chosen ? `Text of ${chosen.name}` : 'Text';
    byId('file-save').disabled = !chosen;
    this.showNote();
    this.showFields();
    if (!this.wordsAreTyped) this.writeWords();
  }

  showNote() {
    const { chosen } = this.files;
    const isKept = chosen !== null && !isPlainText(chosen.bytes);
    byId('text-note').hidden = !isKept;
    byId('text-note').textContent = 'This file has a CR, or bytes that are not UTF-8. Runs read it byte for byte as it '
      + 'was loaded; an edit makes it what is shown.';
  }

  showSizes() {
    this.files.list.forEach((file, row) => {
      byId('files').tBodies[0].rows[row].cells[2].textContent = sizeText(file.bytes.length);
    });
  }

  rename(file) {
    const name = prompt('New name', file.name);
    if (name !== null && !this.files.rename(file, name)) alert('The name is empty or in use.');
  }

  remove(file) {
    if (file.bytes.length === 0 || confirm(`Remove ${file.name} from the page?`)) this.files.remove(file);
  }

  chooseMode() {
    byId('input-hint').textContent = this.mode.reads ? `(${this.mode.reads})` : '(this mode reads none)';
    this.showFields();
    this.writeWords();
  }

  // Shows the fields that the mode needs, and those of its options.
  showFields() {
    const { mode } = this, needs = mode.needs ?? [];
    const messages = this.files.names('messages'), tables = this.files.names('tables');
    const fix = (key, names) => { if (!names.includes(this.fields[key])) this.fields[key] = names[0] ?? ''; };
    if (messages.length) fix('file', messages);
    if (needs.includes('second')) fix('second', [...messages.slice(1), ...messages]);
    const fileMenu = (key, label, names, none) => {
      const menu = element('select', {}, ...(none ? [element('option', { value: '' }, none)] : []),
        ...names.map(name => element('option', { value: name }, name)));
      menu.value = this.fields[key];
      menu.onchange = () => { this.fields[key] = menu.value; this.choiceChanged(); };
      menu.setAttribute('aria-label', label);
      return element('label', {}, `${label} `, menu);
    };
    const textField = (key, label, size) => {
      const field = element('input', { value: this.fields[key], size, inputmode: 'numeric' });
      field.oninput = () => { this.fields[key] = field.value; this.writeWords(); };
      return element('label', {}, `${label} `, field);
    };
    const check = (key, label) => {
      const field = element('input', { type: 'checkbox' });
      field.checked = this.fields[key];
      field.onchange = () => { this.fields[key] = field.checked; this.writeWords(); };
      return element('label', {}, field, ` ${label}`);
    };
    const made = [];
    if (needs.includes('file')) made.push(fileMenu('file', 'of', messages));
    if (needs.includes('second')) made.push(fileMenu('second', 'and', messages));
    if (needs.includes('file') && !messages.length) {
      made.push(element('span', { class: 'note bad' }, 'No file is used as a messages file.'));
    }
    if (needs.includes('seed')) made.push(textField('seed', 'seed', 8));
    if (needs.includes('length')) made.push(textField('length', 'length', 4));
    if (needs.includes('size')) made.push(textField('size', 'size', 4));
    if (mode.options.includes('tree')) made.push(check('tree', 'trees'));
    if (mode.options.includes('expected')) made.push(check('expected', 'expected tokens'));
    if (mode.options.includes('messages') && messages.length) {
      if (!messages.includes(this.fields.messages)) this.fields.messages = '';
      made.push(fileMenu('messages', 'messages of', messages, 'no file'));
    }
    if (mode.options.includes('comments')) made.push(check('comments', 'expected tokens'));
    if (tables.length && !needs.includes('size')) {
      if (!tables.includes(this.fields.tables)) this.fields.tables = '';
      made.push(fileMenu('tables', 'table of', tables, 'no file'));
    } else {
      this.fields.tables = '';
    }
    keepFocus(byId('fields'), () => byId('fields').replaceChildren(...made));
  }

  // The choices that count in each view: how the automaton is made, and the grammar files.
  shared() {
    return {
      canonical: byId('automaton-kind').value === 'canonical',
      strict: byId('strict').checked,
      noPrelude: byId('no-prelude').checked,
      tables: this.fields.tables,
      grammar: this.files.names('grammar'),
    };
  }

  // A choice of the menu has changed. Some choices count in the other views too.
  choiceChanged() {
    this.writeWords();
    this.files.onchange();
  }

  writeWords() {
    byId('words').value = lineOfWords(wordsOf({ mode: this.mode, ...this.fields, ...this.shared() }));
    this.noteTyped(false);
  }

  noteTyped(isTyped) {
    this.wordsAreTyped = isTyped;
    byId('words-note').hidden = !isTyped;
  }

  input() {
    return this.inputBytes ?? utf8Of(byId('input').value);
  }

  async run() {
    const words = splitLine(byId('words').value);
    this.words = words;
    showStatus(byId('status'), 'Running…');
    for (const id of ['out-save', 'out-keep']) byId(id).disabled = true;
    for (const id of ['out', 'err']) byId(id).textContent = '';
    byId('out-note').hidden = true;
    const { answer, fault } = await this.tool.run(words, this.input());
    if (!answer) {
      showStatus(byId('status'), fault, false);
      return;
    }
    this.answer = answer;
    showStatus(byId('status'), statusText(answer, this.tool.limit), answer.status === 0);
    showText(byId('err'), answer.err);
    const isCut = showText(byId('out'), answer.out);
    byId('out-note').hidden = !isCut;
    byId('out-note').textContent = `Only the first ${MOST_SHOWN} of ${answer.out.length} bytes are shown. Save out to `
      + 'read them all.';
    for (const id of ['out-save', 'out-keep']) byId(id).disabled = answer.out.length === 0;
  }

  nameOfOut() {
    const names = { '--write-tables': 'grammar.tables', '--compile-errors': 'messages.table' };
    const mode = this.words.find(word => MODES.some(mode => mode.word === word)) ?? 'out';
    if (['--list-errors', '--rebase-errors', '--update-errors'].includes(mode)) return 'parser.messages';
    return names[mode] ?? `${mode.replace(/^--/, '')}.txt`;
  }
}
