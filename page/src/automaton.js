// The automaton, as read from the text of --show-automaton, and places for its states in a picture.

// Reads the text. A state has its number, its items, its actions (token, what, target), its edges (symbol, target, and
// whether the symbol is a token), and the symbol by which it is entered. In an LR automaton all edges to a state have
// the same symbol, so a picture can write the symbol into the state.
function readAutomaton(text) {
  const lines = text.split('\n');
  const states = [];
  let state = null;
  for (const line of lines.slice(1)) {
    const head = /^state (\d+)$/.exec(line);
    if (head) {
      state = { number: Number(head[1]), items: [], actions: [], edges: [], before: [], symbol: null };
      states.push(state);
      continue;
    }
    const action = /^  (\S+): (shift|goto|reduce|accept|hole) ?(.*)$/.exec(line);
    if (!action && line.startsWith('  ')) state.items.push(line.slice(2));
    if (!action) continue;
    const [, name, what, rest] = action;
    if (what === 'goto') state.edges.push({ symbol: name, target: Number(rest), isToken: false });
    else state.actions.push({ name, what, rest });
    if (what === 'shift') state.edges.push({ symbol: name, target: Number(rest), isToken: true });
  }
  for (const from of states) {
    for (const { symbol, target, isToken } of from.edges) {
      const to = states[target];
      to.before.push(from.number);
      to.symbol = symbol;
      to.isByToken = isToken;
    }
  }
  return { head: lines[0], states };
}

// The distance of each state from the start states, along the edges.
function layersOf(states) {
  const layer = states.map(({ before }) => before.length === 0 ? 0 : -1);
  if (states.length) layer[0] = 0;
  const queue = states.filter((_, number) => layer[number] === 0).map(({ number }) => number);
  for (const number of queue) {
    for (const { target } of states[number].edges) {
      if (layer[target] >= 0) continue;
      layer[target] = layer[number] + 1;
      queue.push(target);
    }
  }
  return layer.map(depth => Math.max(depth, 0));
}

// Orders the states of each layer so that edges cross less: a state goes where the mean of its neighbours is.
function columnsOf(states) {
  const layer = layersOf(states), columns = [];
  for (const { number } of states) (columns[layer[number]] ??= []).push(number);
  const place = [];
  const settle = column => column.forEach((number, row) => { place[number] = row - (column.length - 1) / 2; });
  columns.forEach(settle);
  const neighbours = number => [...states[number].before, ...states[number].edges.map(({ target }) => target)];
  for (let round = 0; round < 8; round++) {
    const order = round % 2 ? [...columns].reverse() : columns;
    for (const column of order) {
      const mean = new Map(column.map(number => {
        const places = neighbours(number).filter(other => layer[other] !== layer[number]).map(other => place[other]);
        return [number, places.length ? places.reduce((a, b) => a + b) / places.length : place[number]];
      }));
      column.sort((a, b) => mean.get(a) - mean.get(b) || a - b);
      settle(column);
    }
  }
  return columns;
}

const BOX = { height: 40, gapX: 76, gapY: 20, margin: 30, character: 8.5 };
const FEWEST_CHARACTERS = 14;
const MOST_CHARACTERS = 18;

// The number of characters for which each box has room: for the longest number with its symbol, within limits.
function charactersOf(states) {
  const longest = Math.max(...states.map(({ number, symbol }) => `${number}  ${symbol ?? 'start'}`.length));
  return Math.min(Math.max(longest, FEWEST_CHARACTERS), MOST_CHARACTERS);
}

// Places for columns of boxes: where each box is, the width of the boxes, and the size of the picture.
function placesOf(columns, characters) {
  const boxWidth = characters * BOX.character + 16;
  const tallest = Math.max(...columns.map(column => column.length), 1);
  const height = tallest * (BOX.height + BOX.gapY) + 2 * BOX.margin;
  const at = new Map();
  columns.forEach((column, index) => {
    const top = (height - column.length * (BOX.height + BOX.gapY) + BOX.gapY) / 2;
    column.forEach((number, row) => at.set(number, {
      x: BOX.margin + index * (boxWidth + BOX.gapX),
      y: top + row * (BOX.height + BOX.gapY),
    }));
  });
  return { at, boxWidth, width: columns.length * (boxWidth + BOX.gapX) - BOX.gapX + 2 * BOX.margin, height };
}

// The picture of all states, by their distance from the start states.
function wholePicture(states) {
  const edges = states.flatMap(({ number, edges }) => edges.map(edge => ({ ...edge, from: number })));
  return { ...placesOf(columnsOf(states), charactersOf(states)), edges };
}

const MOST_NEIGHBOURS = 24;

// The picture of one state, with the states before it on the left, and those after it on the right. A state that is
// both before and after has a box on each side.
function picturesOfOne(states, number) {
  const { before, edges } = states[number];
  const onLeft = before.filter(other => other !== number), onRight = edges.filter(({ target }) => target !== number);
  const left = onLeft.slice(0, MOST_NEIGHBOURS), right = onRight.slice(0, MOST_NEIGHBOURS);
  const columns = [
    left.map(other => `before ${other}`), [`at ${number}`], right.map(({ target }) => `after ${target}`),
  ];
  const lines = [
    ...left.map(other => ({ from: `before ${other}`, target: `at ${number}`, isToken: states[number].isByToken })),
    ...right.map(({ target, isToken }) => ({ from: `at ${number}`, target: `after ${target}`, isToken })),
  ];
  if (edges.length > onRight.length) {
    lines.push({ from: `at ${number}`, target: `at ${number}`, isToken: states[number].isByToken });
  }
  const hidden = { left: onLeft.length - left.length, right: onRight.length - right.length };
  return { ...placesOf(columns, charactersOf(states)), edges: lines, hidden };
}
