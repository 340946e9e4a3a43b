// The files of the page. A file has a name, what it is used as, and its bytes.

const USES = [['grammar', 'grammar'], ['messages', 'messages file'], ['tables', 'table file'], ['', 'not used']];

// What a file is used as, where its name or its text shows that.
function guessUse(name, bytes) {
  if (/\.(mly|vy)$/.test(name)) return 'grammar';
  if (textOf(bytes.slice(0, 14)) === 'menhir-tables ') return 'tables';
  if (/messages|\.msg$/.test(name)) return 'messages';
  return '';
}

// A text area cannot show each file: it drops a CR, and it has no bytes that are not UTF-8. Such a file is kept byte
// for byte until its text is edited.
function isPlainText(bytes) {
  try {
    return !new TextDecoder('utf-8', { fatal: true, ignoreBOM: true }).decode(bytes).includes('\r');
  } catch {
    return false;
  }
}

class Files {
  constructor(onchange) {
    this.list = [];
    this.chosen = null;
    this.onchange = onchange;
  }

  named(name) {
    return this.list.find(file => file.name === name) ?? null;
  }

  usedAs(use) {
    return this.list.filter(file => file.use === use);
  }

  names(use) {
    return this.usedAs(use).map(({ name }) => name);
  }

  // Adds a file, or writes over the file of this name, and chooses it.
  put(name, bytes, use = guessUse(name, bytes)) {
    const old = this.named(name);
    if (old) old.bytes = bytes;
    else this.list.push({ name, bytes, use });
    this.choose(this.named(name));
  }

  choose(file) {
    this.chosen = file;
    this.onchange();
  }

  remove(file) {
    const at = this.list.indexOf(file);
    this.list.splice(at, 1);
    if (this.chosen === file) this.chosen = this.list[Math.min(at, this.list.length - 1)] ?? null;
    this.onchange();
  }

  // Moves a file up by one place. The order of the grammar files is the order in which they are read.
  raise(file) {
    const at = this.list.indexOf(file);
    if (at > 0) this.list.splice(at - 1, 2, file, this.list[at - 1]);
    this.onchange();
  }

  // Gives a file another name, unless the name is empty or taken.
  rename(file, name) {
    if (!name || (this.named(name) && this.named(name) !== file)) return false;
    file.name = name;
    this.onchange();
    return true;
  }

  replaceAll(files) {
    this.list = files.map(({ name, text, use }) => ({ name, bytes: utf8Of(text), use }));
    this.choose(this.list[0] ?? null);
  }

  freshName(stem) {
    for (let number = 1; ; number++) {
      const name = number === 1 ? stem : stem.replace(/(\.\w+)?$/, `-${number}$1`);
      if (!this.named(name)) return name;
    }
  }

  // The files as a request has them.
  all() {
    return this.list.map(({ name, bytes }) => ({ name, bytes }));
  }
}
