// The run of a sentence, step by step, as a session of the program answers it.

// A session's `resume` makes one step, and in the phase `input-needed` it changes nothing. So the commands for a whole
// sentence can be written at once, with more commands `resume` after each token than steps are needed; where they turn
// out too few, the run is asked for again with more.

const FEW_RESUMES = 8;
const MOST_COMMANDS = 900000;

// The commands for a sentence. After each step the stack is shown, and before each token the expected tokens.
function walkCommands(start, tokens, resumes) {
  const lines = [start ? `begin a ${start}` : 'begin a', 'stack a', 'expected a'];
  for (const token of tokens) {
    lines.push(`offer a ${token}`, 'stack a');
    for (let count = 0; count < resumes; count++) lines.push('resume a', 'stack a');
    lines.push('expected a');
  }
  for (let count = 0; count < resumes; count++) lines.push('resume a', 'stack a');
  lines.push('tree a');
  return lines;
}

// Reads the answers to the commands as steps. A step has its command and answer, its phase, the number of its state,
// and the symbols on the stack; and where a token is asked for, the expected tokens. `isShort` reports that a token has
// more steps than there were commands for.
function readWalk(commands, answers) {
  const steps = [];
  let isShort = false, tree = null, fault = null;
  const isOver = () => steps.length > 0 && ['accepted', 'rejected'].includes(steps.at(-1).phase);
  for (let at = 0; at < commands.length; at++) {
    const command = commands[at], answer = answers[at] ?? '';
    const [verb, , token] = command.split(' ');
    if (verb === 'stack') continue;
    if (verb === 'expected') {
      const found = /^a expected ?(.*)$/.exec(answer);
      if (found && steps.length) steps.at(-1).expected = found[1].split(' ').filter(word => word);
    } else if (verb === 'tree') {
      const found = /^a (\[.*)$/.exec(answer);
      if (found) tree = found[1];
    } else if (answer.startsWith('error: ')) {
      // A command `resume` too many, or a command after the end, is refused, and is no step.
      if (answer.startsWith('error: wrong phase: ') && verb === 'resume') continue;
      if (isOver()) continue;
      if (verb === 'offer' && answer.startsWith('error: wrong phase: ')) isShort = true;
      else fault = `${command}: ${answer}`;
      break;
    } else {
      const [phase, state] = answer.split(' ').slice(1);
      const stack = /^a stack ?(.*)$/.exec(answers[at + 1] ?? '');
      steps.push({
        command, answer, phase, token,
        state: state === undefined ? null : Number(state),
        stack: stack ? stack[1].split(' ').filter(word => word) : [],
        expected: null,
      });
    }
  }
  const last = steps.at(-1);
  if (!fault && last && !['input-needed', 'accepted', 'rejected'].includes(last.phase)) isShort = true;
  return { steps, isShort, tree, fault };
}

// Reads a sentence line: the name of a start symbol with a colon, which may be left out, and the tokens.
function readSentence(line) {
  const words = line.trim().split(/\s+/).filter(word => word);
  const [first, second, ...rest] = words;
  if (first?.endsWith(':')) return { start: first.slice(0, -1), tokens: words.slice(1) };
  if (second === ':') return { start: first, tokens: rest };
  return { start: null, tokens: words };
}

// Runs a sentence. `ask` runs a session, and gives its answer.
async function walk(sentence, ask) {
  const { start, tokens } = readSentence(sentence);
  for (let resumes = FEW_RESUMES; ; resumes *= 8) {
    const commands = walkCommands(start, tokens, resumes);
    if (commands.length > MOST_COMMANDS) throw new Error('this run has too many steps to be shown');
    const { answer, out } = await ask(commands.join('\n') + '\n');
    const found = readWalk(commands, out.split('\n'));
    if (!found.isShort || answer.status !== 0) return { ...found, answer, start, tokens };
  }
}

// The states on the stack, from the bottom, as the edges of the automaton give them.
function statesOnStack(states, first, symbols) {
  const path = [first];
  for (const symbol of symbols) {
    const edge = states[path.at(-1)]?.edges.find(edge => edge.symbol === symbol);
    if (!edge) break;
    path.push(edge.target);
  }
  return path;
}
