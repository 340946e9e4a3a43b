// A messages file as a list of entries. The texts that are read here were written by --list-errors or --rebase-errors.

const PLACEHOLDER = '<YOUR SYNTAX ERROR MESSAGE HERE>';

// Reads a messages file that the program wrote. An entry has `sentences` (each with its comment lines) and `message`,
// which is empty where the file has the placeholder. What comes after the last entry is in `rest`.
function readMessages(text) {
  const entries = [];
  let sentences = [], message = null, rest = [];
  const close = () => {
    if (message !== null) entries.push({ sentences, message: message.join('\n') });
    else rest.push(...sentences.flatMap(({ line, comments }) => [line, ...comments]));
    [sentences, message] = [[], null];
  };
  let isBetween = false;
  for (const line of text.replace(/\n$/, '').split('\n')) {
    if (message !== null && line === '') {
      close();
      isBetween = false;
    } else if (message !== null) {
      message.push(line);
    } else if (line === '') {
      isBetween = sentences.length > 0;
    } else if (line.startsWith('#')) {
      if (sentences.length && !isBetween) sentences.at(-1).comments.push(line);
      else rest.push(line);
    } else if (isBetween) {
      message = [line];
    } else {
      sentences.push({ line, comments: [] });
    }
  }
  close();
  for (const entry of entries) if (entry.message === PLACEHOLDER) entry.message = '';
  return { entries, rest };
}

// A message without the ends of lines after it. A message of blanks alone counts as none.
function textOfMessage(message) {
  return message.trim() === '' ? '' : message.replace(/\n+$/, '');
}

// Writes entries as a messages file, in the form in which the program writes them.
function writeMessages({ entries, rest }) {
  const texts = entries.map(({ sentences, message }) => {
    const lines = sentences.flatMap(({ line, comments }) => [line, ...comments]);
    return [...lines, '', textOfMessage(message) || PLACEHOLDER, '', ''].join('\n');
  });
  return texts.join('') + rest.map(line => line + '\n').join('');
}

// What the comment lines of a sentence say: its state, items, stack, reductions and expected tokens.
function readComments(comments) {
  const found = { state: null, items: [], suffix: '', reduced: [], expected: null };
  const lines = comments.map(line => line.replace(/^## ?/, ''));
  const suffixAt = lines.indexOf('The known suffix of the stack is as follows:');
  for (const [at, line] of lines.entries()) {
    const state = /^Ends in an error in state: (\d+)\.$/.exec(line);
    if (state) found.state = Number(state[1]);
    else if (line.startsWith('Reduced before the error: ')) found.reduced.push(line.slice(26));
    else if (line.startsWith('Expected:')) found.expected = line.slice(9).trim();
    else if (suffixAt >= 0 && at === suffixAt + 1) found.suffix = line;
    else if (suffixAt >= 0 && at < suffixAt && line !== '') found.items.push(line);
  }
  return found;
}

// Why a message cannot be written into the file as it is, or null. A blank line would end the message, and a line that
// begins with # would be a comment.
function messageFault(message) {
  if (textOfMessage(message) === '') return null;
  const lines = textOfMessage(message).split('\n');
  if (lines.some(line => line.trim() === '')) return 'A message has no blank line inside.';
  if (lines.some(line => line.startsWith('#'))) return 'A line that begins with # is a comment, not a message.';
  return null;
}
