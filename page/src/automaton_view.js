// The automaton as a picture that can be walked, and the run of a sentence in it.

// With more states than this, only one state and its neighbours are drawn.
const MOST_DRAWN = 80;

class AutomatonView {
  constructor(tool) {
    this.tool = tool;
    this.automaton = null;
    this.isFresh = false;
    this.chosen = 0;
    this.zoom = 1;
    this.isFitted = true;
    this.steps = [];
    this.step = -1;
    byId('draw').onclick = () => this.run();
    byId('picture-kind').onchange = () => {
      this.draw();
      if (this.isFitted) this.fit();
    };
    byId('state-number').onchange = event => this.choose(Number(event.target.value));
    byId('zoom-in').onclick = () => this.zoomBy(1.25);
    byId('zoom-out').onclick = () => this.zoomBy(1 / 1.25);
    byId('zoom-fit').onclick = () => this.fit();
    byId('walk').onclick = () => this.walk();
    byId('sentence').onkeydown = event => {
      if (event.key === 'Enter' && !event.ctrlKey) this.walk();
    };
    byId('walk-first').onclick = () => this.goTo(0);
    byId('walk-back').onclick = () => this.goTo(this.step - 1);
    byId('walk-next').onclick = () => this.goTo(this.step + 1);
    byId('walk-last').onclick = () => this.goTo(this.steps.length - 1);
    new ResizeObserver(() => this.isFitted && this.fit()).observe(byId('picture'));
  }

  // The files have changed: the picture may be of another grammar.
  noteChange() {
    this.isFresh = false;
    if (this.automaton) showStatus(byId('automaton-status'), 'The files have changed since this picture.', false);
  }

  words(mode) {
    const shared = this.tool.runView.shared();
    return [mode, ...(shared.noPrelude ? ['--no-stdlib'] : []), ...automatonWords(shared), '--', ...shared.grammar];
  }

  async run() {
    showStatus(byId('automaton-status'), 'Running…');
    const { answer, fault } = await this.tool.run(this.words('--show-automaton'), new Uint8Array());
    if (!answer) {
      showStatus(byId('automaton-status'), fault, false);
      return false;
    }
    byId('automaton-err').hidden = answer.err.length === 0;
    showText(byId('automaton-err'), answer.err);
    if (answer.status !== 0) {
      byId('automaton-body').hidden = true;
      this.automaton = null;
      showStatus(byId('automaton-status'), statusText(answer, this.tool.limit), false);
      return false;
    }
    this.automaton = readAutomaton(textOf(answer.out));
    this.isFresh = true;
    const count = this.automaton.states.length;
    showStatus(byId('automaton-status'), this.automaton.head, true);
    byId('automaton-body').hidden = false;
    byId('state-number').max = count - 1;
    const kind = byId('picture-kind'), isLarge = count > MOST_DRAWN;
    kind.options[0].disabled = isLarge;
    kind.options[0].textContent = isLarge ? `all states (for up to ${MOST_DRAWN})` : 'all states';
    kind.value = isLarge ? 'one' : 'whole';
    this.setSteps([], null);
    this.chosen = 0;
    this.draw();
    this.showDetails();
    this.fit();
    return true;
  }

  get states() {
    return this.automaton.states;
  }

  // Chooses a state: it is marked in the picture, and its details are shown.
  choose(number, { focus = false } = {}) {
    if (!this.automaton || !(number >= 0 && number < this.states.length)) return;
    this.chosen = number;
    if (byId('picture-kind').value === 'one') this.draw();
    else this.mark();
    this.showDetails();
    this.show(this.boxOf(number), focus);
  }

  boxOf(number) {
    return byId('picture').querySelector(`.box[data-state="${number}"].center`)
      ?? byId('picture').querySelector(`.box[data-state="${number}"]`);
  }

  // Moves the picture so that a box can be seen.
  show(box, focus) {
    if (!box) return;
    if (focus) box.focus({ preventScroll: true });
    const frame = byId('picture').getBoundingClientRect(), at = box.getBoundingClientRect();
    if (at.left < frame.left || at.right > frame.right || at.top < frame.top || at.bottom > frame.bottom) {
      byId('picture').scrollLeft += (at.left + at.right - frame.left - frame.right) / 2;
      byId('picture').scrollTop += (at.top + at.bottom - frame.top - frame.bottom) / 2;
    }
  }

  draw() {
    const isWhole = byId('picture-kind').value === 'whole';
    const picture = isWhole ? wholePicture(this.states) : picturesOfOne(this.states, this.chosen);
    this.picture = picture;
    const boxes = [...picture.at].map(([key, place]) => this.box(key, place));
    const edges = picture.edges.map(edge => edgeShape(picture, edge));
    const name = isWhole ? 'all states' : `state ${this.chosen} and its neighbours`;
    this.svg = shape('svg', { viewBox: `0 0 ${picture.width} ${picture.height}`, role: 'group', 'aria-label': name },
      arrowShape(), ...edges, ...boxes);
    for (const [side, x] of [['left', BOX.margin], ['right', picture.width - BOX.margin - picture.boxWidth]]) {
      const count = picture.hidden?.[side] ?? 0;
      if (count) this.svg.append(shape('text', { x, y: picture.height - 8, class: 'more' }, `and ${count} more`));
    }
    byId('picture').replaceChildren(this.svg);
    this.setZoom(this.zoom);
    this.mark();
  }

  box(key, place) {
    const number = typeof key === 'number' ? key : Number(key.split(' ')[1]);
    const { symbol, isByToken } = this.states[number];
    const kind = symbol === null ? 'start' : isByToken ? 'token' : 'rule';
    const label = symbol === null ? 'start' : symbol, width = this.picture.boxWidth;
    const room = Math.floor((width - 16) / BOX.character) - String(number).length - 1;
    const box = shape('g', {
      class: `box ${kind}${String(key).startsWith('at ') ? ' center' : ''}`, tabindex: 0, role: 'button',
      'data-state': number, transform: `translate(${place.x} ${place.y})`,
      'aria-label': symbol === null ? `state ${number}, a start state` : `state ${number}, entered by ${symbol}`,
      onclick: () => this.choose(number, { focus: true }),
      onkeydown: event => this.key(event, box, number),
    },
    shape('title', {}, `state ${number} ${label}\n${this.states[number].items.join('\n')}`),
    shape('rect', { width, height: BOX.height, rx: 6 }),
    shape('text', { x: 8, y: 25, class: 'number' }, String(number)),
    shape('text', { x: width - 8, y: 25, 'text-anchor': 'end' }, shorten(label, room)));
    return box;
  }

  // The arrow keys move to the next box in their direction, Enter and the space bar choose a box.
  key(event, box, number) {
    if (event.key === 'Enter' || event.key === ' ') {
      event.preventDefault();
      this.choose(number, { focus: true });
    }
    const direction = { ArrowRight: [1, 0], ArrowLeft: [-1, 0], ArrowDown: [0, 1], ArrowUp: [0, -1] }[event.key];
    if (!direction) return;
    event.preventDefault();
    const from = box.getBoundingClientRect();
    const distance = other => {
      const at = other.getBoundingClientRect(), x = at.left - from.left, y = at.top - from.top;
      const along = x * direction[0] + y * direction[1], across = Math.abs(x * direction[1] + y * direction[0]);
      return along > 1 ? along + 2 * across : Infinity;
    };
    const others = [...this.svg.querySelectorAll('.box')].filter(other => distance(other) < Infinity);
    others.sort((a, b) => distance(a) - distance(b));
    if (others.length) this.show(others[0], true);
  }

  // Marks the chosen state, its edges, and the states and edges on the stack of the present step.
  mark() {
    const path = this.pathOfStep();
    for (const box of this.svg.querySelectorAll('.box')) {
      const number = Number(box.dataset.state);
      box.classList.toggle('chosen', number === this.chosen);
      box.classList.toggle('stacked', path.includes(number));
    }
    const pairs = new Set(path.slice(1).map((to, at) => `${path[at]} ${to}`));
    const number = key => typeof key === 'number' ? key : Number(key.split(' ')[1]);
    this.picture.edges.forEach(({ from, target }, at) => {
      const line = this.svg.querySelectorAll('.edge')[at];
      line.classList.toggle('near', number(from) === this.chosen || number(target) === this.chosen);
      line.classList.toggle('taken', pairs.has(`${number(from)} ${number(target)}`));
    });
  }

  zoomBy(factor) {
    this.isFitted = false;
    this.setZoom(this.zoom * factor);
    this.show(this.boxOf(this.chosen), false);
  }

  setZoom(zoom) {
    if (!this.svg) return;
    this.zoom = Math.min(Math.max(zoom, 0.15), 3);
    this.svg.setAttribute('width', this.picture.width * this.zoom);
    this.svg.setAttribute('height', this.picture.height * this.zoom);
  }

  // Fits the whole picture into its frame, but never so small that its texts cannot be read.
  fit() {
    const { clientWidth, clientHeight } = byId('picture');
    if (!this.svg || clientWidth === 0) return;
    this.isFitted = true;
    const fitting = Math.min(clientWidth / this.picture.width, clientHeight / this.picture.height);
    this.setZoom(Math.max(Math.min(fitting, 1), 0.75));
    this.show(this.boxOf(this.chosen), false);
  }

  showDetails() {
    const state = this.states[this.chosen];
    byId('state-number').value = this.chosen;
    const link = number => button(String(number), () => this.choose(number), { class: 'link' });
    const actionRow = ({ name, what, rest }) => element('tr', {}, element('td', {}, name),
      element('td', {}, ...(what === 'shift' ? ['shift ', link(Number(rest))] : [`${what} ${rest}`])));
    const gotoRow = ({ symbol, target }) => element('tr', {},
      element('td', {}, symbol), element('td', {}, 'goto ', link(target)));
    const before = state.before.slice(0, 60).flatMap(number => [link(number), ' ']);
    byId('state-details').replaceChildren(
      element('h3', {}, `State ${state.number}, `,
        state.symbol === null ? 'a start state' : `entered by ${state.symbol}`),
      element('pre', { class: 'items', tabindex: 0, 'aria-label': 'items' }, state.items.join('\n')),
      element('p', { class: 'note' }, 'Reached from: ', ...(before.length ? before : ['no state']),
        state.before.length > 60 ? `and ${state.before.length - 60} more` : ''),
      element('table', {},
        element('thead', {}, element('tr', {}, element('th', {}, 'Next'), element('th', {}, 'Action'))),
        element('tbody', {}, ...state.actions.map(actionRow),
          ...state.edges.filter(({ isToken }) => !isToken).map(gotoRow))));
  }

  // Runs the sentence as a session, and shows its steps.
  async walk() {
    if (!this.isFresh && !await this.run()) return;
    const ask = async commands => {
      const { answer, fault } = await this.tool.run(this.words('--session'), utf8Of(commands));
      if (!answer) throw new Error(fault);
      return { answer, out: textOf(answer.out) };
    };
    try {
      const found = await walk(byId('sentence').value, ask);
      const failed = found.answer.status !== 0 ? statusText(found.answer, this.tool.limit) : null;
      this.setSteps(found.steps, found.fault ?? failed);
      this.tree = found.tree;
      this.goTo(0);
    } catch (fault) {
      this.setSteps([], fault.message);
    }
  }

  setSteps(steps, fault) {
    this.steps = steps;
    this.step = -1;
    this.tree = null;
    byId('walk-note').hidden = fault === null;
    byId('walk-note').classList.toggle('bad', fault !== null);
    byId('walk-note').textContent = fault ?? '';
    byId('steps').hidden = steps.length === 0;
    byId('steps').tBodies[0].replaceChildren(...steps.map(({ command, answer, stack }, at) => element('tr',
      { onclick: () => this.goTo(at) },
      element('td', {}, command), element('td', {}, answer), element('td', {}, stack.join(' ')))));
    byId('walk-expected').replaceChildren();
    this.showPlace();
  }

  showPlace() {
    const last = this.steps.length - 1;
    byId('walk-first').disabled = byId('walk-back').disabled = this.step <= 0;
    byId('walk-next').disabled = byId('walk-last').disabled = this.step >= last;
    byId('walk-place').textContent = this.steps.length ? `step ${this.step + 1} of ${this.steps.length}` : '';
  }

  // Goes to a step: its row, its stack and its state are marked.
  goTo(at) {
    if (at < 0 || at >= this.steps.length) return;
    this.step = at;
    const { expected, phase } = this.steps[at], rows = byId('steps').tBodies[0].rows;
    for (const [row, place] of [...rows].entries()) place.classList.toggle('chosen', row === at);
    rows[at].scrollIntoView({ block: 'nearest' });
    this.showPlace();
    const path = this.pathOfStep();
    this.choose(this.steps[at].state ?? path.at(-1));
    const isLast = at === this.steps.length - 1;
    if (phase === 'accepted' && this.tree) this.noteWalk(`Tree: ${this.tree}`);
    else if (phase === 'rejected') this.noteWalk('The token is refused.');
    else if (phase === 'input-needed' && isLast) this.noteWalk('The parser needs one more token.');
    else if (this.steps.length) this.noteWalk(null);
    byId('walk-expected').replaceChildren(...(expected
      ? ['Expected: ', ...expected.map(token => button(token, () => this.offer(at, token),
        { title: 'Continues the sentence with this token' }))]
      : []));
  }

  noteWalk(text) {
    if (byId('walk-note').classList.contains('bad')) return;
    byId('walk-note').hidden = text === null;
    byId('walk-note').textContent = text ?? '';
  }

  // Continues the sentence with a token after the tokens that were read up to this step.
  async offer(at, token) {
    const offers = this.steps.slice(0, at + 1).filter(({ command }) => command.startsWith('offer '));
    const read = offers.map(step => step.token);
    const { start } = readSentence(byId('sentence').value);
    byId('sentence').value = [...(start ? [`${start}:`] : []), ...read, token].join(' ');
    await this.walk();
    this.goTo(this.steps.length - 1);
    byId('walk-expected').querySelector('button')?.focus();
  }

  // The states on the stack of the present step.
  pathOfStep() {
    if (this.step < 0) return [];
    return statesOnStack(this.states, this.steps[0].state, this.steps[this.step].stack);
  }
}

function shorten(text, most) {
  return text.length > most ? `${text.slice(0, most - 1)}…` : text;
}

// The line of an edge. An edge to a later column leaves a box on the right, and comes in on the left; an edge to an
// earlier column the other way round; an edge within a column leaves and comes in on the right.
function edgeShape({ at, boxWidth }, { from, target, isToken }) {
  const a = at.get(from), b = at.get(target), right = a.x + boxWidth, middle = BOX.height / 2;
  let line;
  if (from === target) {
    line = `M${a.x + 44} ${a.y} c-12 -22 44 -22 32 -1`;
  } else if (b.x > a.x) {
    const bend = Math.max((b.x - right) / 2, 24), [y, to] = [a.y + middle - 5, b.y + middle - 5];
    line = `M${right} ${y} C${right + bend} ${y} ${b.x - bend} ${to} ${b.x - 2} ${to}`;
  } else if (b.x < a.x) {
    const end = b.x + boxWidth, bend = Math.max((a.x - end) / 2, 24), [y, to] = [a.y + middle + 8, b.y + middle + 8];
    line = `M${a.x} ${y} C${a.x - bend} ${y} ${end + bend} ${to} ${end + 2} ${to}`;
  } else {
    const bend = 18 + Math.min(Math.abs(b.y - a.y) / 8, 30), [y, to] = [a.y + middle + 2, b.y + middle + 2];
    line = `M${right} ${y} C${right + bend} ${y} ${right + bend} ${to} ${right + 2} ${to}`;
  }
  return shape('path', { d: line, class: `edge ${isToken ? 'token' : 'rule'}`, 'marker-end': 'url(#arrow)' });
}

// The head of each edge, in the colour of its line.
function arrowShape() {
  return shape('defs', {}, shape('marker', { id: 'arrow', viewBox: '0 0 8 8', refX: 7, refY: 4, markerWidth: 9,
    markerHeight: 9, markerUnits: 'userSpaceOnUse', orient: 'auto' },
  shape('path', { d: 'M0 0 L8 4 L0 8 z', class: 'arrow' })));
}
