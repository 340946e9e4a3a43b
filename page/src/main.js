// The page as a whole: the views, the runs, and the line that shows how a run goes on.

class Tool {
  constructor() {
    const packed = Uint8Array.from(atob(byId('module').textContent.trim()), character => character.charCodeAt(0));
    this.runner = new Runner(packed, byId('worker').textContent);
    this.isEdited = false;
    this.files = new Files(() => this.filesChanged());
    this.runView = new RunView(this);
    this.errorsView = new ErrorsView(this);
    this.automatonView = new AutomatonView(this);
    this.listen();
    this.runView.setExample(EXAMPLES[0]);
    this.choose('run');
    this.runner.prepare();
  }

  listen() {
    for (const tab of document.querySelectorAll('nav button')) tab.onclick = () => this.choose(tab.dataset.view);
    byId('stop').onclick = () => this.runner.stop();
    byId('limit').onchange = () => { byId('limit').value = this.limit / 2 ** 20; };
    document.addEventListener('keydown', event => this.key(event));
    window.addEventListener('beforeunload', event => {
      if (this.errorsView.isUnsaved) event.preventDefault();
    });
  }

  key(event) {
    const views = [...document.querySelectorAll('nav button')];
    if (event.key === 'Escape' && this.runner.isBusy) {
      this.runner.stop();
    } else if (event.key === 'Enter' && event.ctrlKey) {
      event.preventDefault();
      this[`${this.view}View`]?.run();
    } else if (event.altKey && views[Number(event.key) - 1]) {
      event.preventDefault();
      views[Number(event.key) - 1].click();
    }
  }

  choose(view) {
    this.view = view;
    for (const tab of document.querySelectorAll('nav button')) {
      if (tab.dataset.view === view) tab.setAttribute('aria-current', 'page');
      else tab.removeAttribute('aria-current');
    }
    for (const section of document.querySelectorAll('.view')) section.hidden = section.id !== `view-${view}`;
  }

  // The list of files has changed.
  filesChanged() {
    this.runView.showFiles();
    this.errorsView.showFiles();
    this.automatonView.noteChange();
    const names = this.files.names('grammar');
    const { canonical, tables } = this.runView.shared();
    const how = tables ? `, table of ${tables}` : canonical ? ', canonical' : '';
    const used = names.length ? `of ${names.join(', ')}${how}` : 'No file is used as a grammar.';
    for (const place of document.querySelectorAll('[data-used]')) place.textContent = used;
  }

  // The text of a file has changed, by an edit or from the disk.
  textsChanged() {
    this.isEdited = true;
    this.automatonView.noteChange();
  }

  // The limit of memory in bytes.
  get limit() {
    const given = Math.round(Number(byId('limit').value)) || 1024;
    return Math.min(Math.max(given, 10), 16384) * 2 ** 20;
  }

  // Makes a run, and shows that it goes on. Gives `answer`, or `fault`: why there is none.
  async run(words, input, files = this.files.all()) {
    const begun = performance.now(), state = byId('state');
    const show = () => { state.textContent = `running, ${((performance.now() - begun) / 1000).toFixed(1)} s`; };
    // Where this run was ended by the beginning of another, the line already shows the other.
    const done = text => {
      clearInterval(timer);
      if (this.runner.isBusy) return;
      state.classList.remove('running');
      state.textContent = text;
      byId('stop').disabled = true;
    };
    state.classList.add('running');
    byId('stop').disabled = false;
    show();
    const timer = setInterval(show, 100);
    const seconds = () => `${((performance.now() - begun) / 1000).toFixed(1)} s`;
    try {
      const answer = await this.runner.run({ words, files, input, limit: this.limit });
      done(`status ${answer.status} after ${seconds()}`);
      return { answer };
    } catch (fault) {
      if (fault instanceof Stopped) {
        done(`stopped after ${seconds()}`);
        return { fault: 'Stopped. There is no answer.' };
      }
      done('no answer');
      return { fault: faultText(fault.message) };
    }
  }

  // Shows a state in the picture, from another view.
  async showState(number) {
    if (await this.showAutomaton()) this.automatonView.choose(number, { focus: true });
  }

  // Shows the last step of a sentence's run, from another view.
  async showWalk(sentence) {
    byId('sentence').value = sentence;
    if (!await this.showAutomaton()) return;
    await this.automatonView.walk();
    this.automatonView.goTo(this.automatonView.steps.length - 1);
  }

  // Shows the automaton, and draws a new picture if the files have changed. Returns whether there is a picture.
  async showAutomaton() {
    this.choose('automaton');
    return this.automatonView.isFresh || this.automatonView.run();
  }
}

// What a fault of the browser means for the user.
function faultText(text) {
  if (/call stack/i.test(text)) return `The browser's stack ran out: this input is nested too deep for it. (${text})`;
  if (/memory64|memory index|invalid memory limits|BigInt/i.test(text) || /^CompileError/.test(text)) {
    return `This browser cannot run the module, which needs WebAssembly with 64-bit memory. (${text})`;
  }
  return `The browser ended the run. (${text})`;
}

// The tests of the page call this object.
window.tool = new Tool();
