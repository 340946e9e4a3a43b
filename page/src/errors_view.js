// The list of all errors as a table, in which the messages are written.

class ErrorsView {
  constructor(tool) {
    this.tool = tool;
    this.messages = null;
    this.isUnsaved = false;
    byId('list').onclick = () => this.list(['--list-errors'], 'listed');
    byId('rebase').onclick = () => this.list(['--rebase-errors', byId('rebase-file').value], 'kept or listed');
    byId('errors-filter').onchange = () => this.filter();
    byId('messages-save').onclick = () => {
      save(byId('messages-name').value, this.bytes());
      this.isUnsaved = false;
    };
    byId('messages-keep').onclick = () => this.keep();
    byId('messages-check').onclick = () => this.check();
  }

  // Called where the files have changed: shows what a list would be made of.
  showFiles() {
    const names = this.tool.files.names('messages');
    fillMenu(byId('rebase-file'), names.map(name => [name, name]));
    for (const id of ['rebase', 'rebase-file']) byId(id).disabled = names.length === 0;
  }

  run() {
    return this.list(['--list-errors'], 'listed');
  }

  async list(mode, how) {
    if (this.isUnsaved && !confirm('The messages in the table are not saved. Make a new table?')) return;
    const shared = this.tool.runView.shared();
    const words = [...mode, ...(byId('list-expected').checked ? ['--comment-expected'] : []),
      ...(shared.noPrelude ? ['--no-stdlib'] : []), ...automatonWords(shared), '--', ...shared.grammar];
    showStatus(byId('errors-status'), 'Running…');
    const { answer, fault } = await this.tool.run(words, new Uint8Array());
    byId('check-out').hidden = true;
    if (!answer) return showStatus(byId('errors-status'), fault, false);
    byId('errors-err').hidden = answer.err.length === 0;
    showText(byId('errors-err'), answer.err);
    this.messages = readMessages(textOf(answer.out));
    this.isUnsaved = false;
    this.how = how;
    this.lastAnswer = answer;
    // The old file is kept: its line numbers are those of the dropped sentences.
    if (mode.length > 1) byId('messages-name').value = this.tool.files.freshName(mode[1]);
    this.show();
    return undefined;
  }

  show() {
    const { entries, rest } = this.messages;
    byId('errors').hidden = entries.length === 0;
    byId('errors-foot').hidden = entries.length === 0;
    byId('errors').tBodies[0].replaceChildren(...entries.map((entry, at) => this.row(entry, at)));
    byId('dropped').hidden = rest.length === 0;
    const dropped = rest.filter(line => line.startsWith('# dropped ')).length;
    byId('dropped').open = dropped > 0;
    byId('dropped').querySelector('summary').textContent = `Dropped sentences: ${dropped}. These lines are at the end `
      + 'of the file, as comments; copy a message from here into a row where it is still right.';
    byId('dropped').querySelector('pre').textContent = rest.join('\n');
    this.filter();
    this.showCount();
  }

  row(entry, at) {
    const told = entry.sentences.map(({ comments }) => readComments(comments));
    const states = [...new Set(told.map(({ state }) => state))];
    const note = element('p', { class: 'note bad', hidden: true });
    const field = element('textarea', { 'aria-label': `message of row ${at + 1}`, placeholder: 'no message yet',
      spellcheck: 'true' });
    const fitRows = () => { field.rows = Math.max(2, field.value.split('\n').length); };
    field.value = entry.message;
    fitRows();
    field.oninput = () => {
      entry.message = field.value;
      this.isUnsaved = true;
      byId('check-out').hidden = true;
      fitRows();
      this.noteFault(entry, field, note);
      this.showCount();
    };
    this.noteFault(entry, field, note);
    return element('tr', {},
      element('td', {}, ...states.map(state => button(`${state}`, () => this.tool.showState(state),
        { class: 'link', title: 'Shows the state in the picture', 'aria-label': `state ${state} in the picture` }))),
      element('td', { class: 'mono' }, ...entry.sentences.flatMap(({ line }) => [sentenceElement(line),
        button('walk', () => this.tool.showWalk(line),
          { class: 'link', title: 'Shows the run of this sentence, step by step', 'aria-label': `walk ${line}` })])),
      element('td', {}, ...told.map(detailsOfSentence)),
      element('td', {}, field, note));
  }

  noteFault(entry, field, note) {
    const fault = messageFault(entry.message);
    note.textContent = fault ?? '';
    note.hidden = fault === null;
    field.toggleAttribute('aria-invalid', fault !== null);
  }

  filter() {
    if (!this.messages) return;
    const onlyOpen = byId('errors-filter').value === 'open';
    this.messages.entries.forEach(({ message }, at) => {
      byId('errors').tBodies[0].rows[at].hidden = onlyOpen && textOfMessage(message) !== '';
    });
  }

  showCount() {
    const { entries } = this.messages;
    const open = entries.filter(({ message }) => textOfMessage(message) === '').length;
    const faults = entries.filter(({ message }) => messageFault(message) !== null).length;
    const { status } = this.lastAnswer;
    const noun = entries.length === 1 ? 'entry' : 'entries';
    const count = `${entries.length} ${noun} ${this.how}, ${open} without a message`;
    const wrong = faults ? `, ${faults} that cannot be saved` : '';
    const good = status === 0 && !faults;
    showStatus(byId('errors-status'),
      status === 0 ? count + wrong : statusText(this.lastAnswer, this.tool.limit), good);
    for (const id of ['messages-save', 'messages-keep', 'messages-check']) byId(id).disabled = faults > 0;
  }

  bytes() {
    return utf8Of(writeMessages(this.messages));
  }

  keep() {
    const name = byId('messages-name').value;
    if (this.tool.files.named(name) && !confirm(`Write over ${name}?`)) return;
    this.tool.files.put(name, this.bytes(), 'messages');
    this.isUnsaved = false;
    showStatus(byId('errors-status'), `${name} is among the files.`, true);
  }

  // Checks the messages of the table by --check-errors, in a file that only this run has.
  async check() {
    const shared = this.tool.runView.shared(), name = byId('messages-name').value;
    const words = ['--check-errors', name, ...(shared.noPrelude ? ['--no-stdlib'] : []),
      ...automatonWords(shared), '--', ...shared.grammar];
    const others = this.tool.files.all().filter(file => file.name !== name);
    const { answer, fault } = await this.tool.run(words, new Uint8Array(), [...others, { name, bytes: this.bytes() }]);
    const place = byId('check-out');
    place.hidden = false;
    if (!answer) place.textContent = fault;
    else place.textContent = textOf(answer.err) + textOf(answer.out) || 'Nothing is wrong with this file.';
  }
}

// A sentence, with the token that is refused in another colour.
function sentenceElement(line) {
  const words = line.split(' ');
  const last = words.length > 1 || !line.endsWith(':') ? words.pop() : null;
  return element('div', {}, words.length ? `${words.join(' ')} ` : '',
    last === null ? null : element('span', { class: 'refused' }, last));
}

// The items of a sentence's state, and what else its comment lines say.
function detailsOfSentence({ items, suffix, reduced, expected }) {
  const fact = (name, text) => element('div', { class: 'fact' }, element('span', {}, `${name}: `),
    element('code', {}, text));
  return element('div', {},
    ...items.map(item => element('div', { class: 'mono' }, item)),
    fact('stack ends in', suffix || '(nothing known)'),
    ...reduced.map(production => fact('reduced before the error', production)),
    expected === null ? null : fact('expected', expected || '(no token)'));
}
