// The text at the left: CodeMirror where it is installed, else a plain text area. Both mark messages, and give and take their
// history, so that undoing goes on after a reload.

import { modeOf } from "./grammar.js";

const MOST_UNDONE = 500;
const MARKS = { error: "●", warning: "▲", note: "·" };

// Returns the place in a line of a column that counts bytes from 1.
export function placeOf(line, column, isByBytes) {
  if (isByBytes) return Math.min(column - 1, line.length);
  let bytes = 0, at = 0;
  for (const letter of line) {
    if (bytes >= column - 1) break;
    const code = letter.codePointAt(0);
    bytes += code < 0x80 ? 1 : code < 0x800 ? 2 : code < 0x10000 ? 3 : 4;
    at += letter.length;
  }
  return at;
}

function separatorOf(text) {
  return text.includes("\r\n") && !/(^|[^\r])\n/.test(text) ? "\r\n" : "\n";
}

class CodeEditor {
  constructor(place, changed) {
    this.mirror = CodeMirror(place, {
      mode: "dbp", lineNumbers: true, gutters: ["CodeMirror-linenumbers", "marks"], lineSeparator: "\n", undoDepth: 10_000,
      maxHighlightLength: 5_000, indentUnit: 2, tabSize: 2, autofocus: true,
      extraKeys: { Tab: (it) => it.replaceSelection("  ") },
    });
    this.marks = [];
    this.mirror.on("change", () => { if (!this.isSetting) changed(); });
  }

  text() { return this.mirror.getValue(); }

  // Shows another text, with its own history.
  set(text, { encoding, history } = {}) {
    this.isSetting = true;
    this.isByBytes = encoding === "latin-1";
    this.mirror.swapDoc(CodeMirror.Doc(text, "dbp", 0, separatorOf(text)));
    if (history) this.mirror.setHistory(history.changes);
    if (history?.cursor) this.mirror.setCursor(history.cursor);
    this.isSetting = false;
  }

  // Puts another text in place, as an edit that can be undone.
  replace(text) { this.mirror.setValue(text); }

  history() { return { changes: this.mirror.getHistory(), cursor: this.mirror.getCursor() }; }

  undo() { this.mirror.undo(); }

  range({ line, column, width = 1 }) {
    const last = this.mirror.lastLine(), at = Math.min(line - 1, last), text = this.mirror.getLine(at);
    const end = line - 1 > last ? text.length : placeOf(text, column + width, this.isByBytes);
    const start = line - 1 > last ? text.length : placeOf(text, column, this.isByBytes);
    const from = start === end ? Math.max(0, start - 1) : start;
    return [{ line: at, ch: from }, { line: at, ch: end }];
  }

  mark(messages) {
    this.mirror.operation(() => {
      for (const mark of this.marks) mark.clear();
      this.mirror.clearGutter("marks");
      this.marks = messages.map((it) => this.markOne(it));
    });
  }

  markOne(message) {
    const [from, to] = this.range(message), { severity } = message;
    const shown = this.mirror.lineInfo(from.line).gutterMarkers?.marks;
    if (!shown || (severity === "error" && !shown.classList.contains("error"))) {
      const made = document.createElement("span");
      made.className = `gutter-mark ${severity}`;
      made.textContent = MARKS[severity];
      made.title = message.message;
      this.mirror.setGutterMarker(from.line, "marks", made);
    }
    const attributes = { title: message.message, "data-at": `${message.line}:${message.column}` };
    return this.mirror.markText(from, to, { className: `marked ${severity}`, attributes });
  }

  goTo(message) {
    const [from, to] = this.range(message);
    this.mirror.setSelection(from, to);
    this.mirror.scrollIntoView({ from, to }, 80);
    this.mirror.focus();
  }

  // Marks the line of a step, or none.
  showLine(line) {
    if (this.shown) this.mirror.removeLineClass(this.shown, "background", "step-line");
    const at = Math.min(line - 1, this.mirror.lastLine());
    this.shown = line ? this.mirror.addLineClass(at, "background", "step-line") : null;
    if (line) this.mirror.scrollIntoView({ line: at, ch: 0 }, 60);
  }
}

// A text area whose changes are kept here, since a browser forgets its own at a reload.
class PlainEditor {
  constructor(place, changed) {
    this.area = document.createElement("textarea");
    this.area.spellcheck = false;
    this.area.setAttribute("aria-label", "Text of the document");
    place.append(this.area);
    Object.assign(this, { changed, last: "", done: [], undone: [], separator: "\n" });
    this.area.addEventListener("input", () => { this.keep(); changed(); });
    this.area.addEventListener("keydown", (event) => this.key(event));
  }

  text() { return this.separator === "\n" ? this.area.value : this.area.value.replaceAll("\n", this.separator); }

  set(text, { encoding, history } = {}) {
    this.isByBytes = encoding === "latin-1";
    this.separator = separatorOf(text);
    this.area.value = text;
    this.last = this.area.value;
    [this.done, this.undone] = history ? [history.done, history.undone] : [[], []];
  }

  replace(text) {
    this.area.value = text;
    this.keep();
    this.changed();
  }

  history() { return { done: this.done, undone: this.undone }; }

  // Keeps what differs from the last text: where it is, what was there, and what is there now. Typing on joins the last change.
  keep() {
    const [old, text] = [this.last, this.area.value];
    let start = 0, rest = 0;
    const least = Math.min(old.length, text.length);
    while (start < least && old[start] === text[start]) start += 1;
    while (rest < least - start && old[old.length - 1 - rest] === text[text.length - 1 - rest]) rest += 1;
    const change = { start, old: old.slice(start, old.length - rest), now: text.slice(start, text.length - rest) };
    const last = this.done[this.done.length - 1];
    const isTypedOn = last && !change.old && change.now.length === 1 && change.now !== "\n" && start === last.start + last.now.length;
    if (isTypedOn && !last.old) last.now += change.now;
    else this.done.push(change);
    this.done = this.done.slice(-MOST_UNDONE);
    this.undone = [];
    this.last = text;
  }

  key(event) {
    if (!(event.ctrlKey || event.metaKey) || !["z", "y", "Z"].includes(event.key)) return;
    event.preventDefault();
    if (event.key === "z") this.undo();
    else this.move(this.undone, this.done, (it) => [it.old, it.now]);
  }

  undo() { this.move(this.done, this.undone, (it) => [it.now, it.old]); }

  move(from, to, parts) {
    const change = from.pop();
    if (!change) return;
    const [there, wanted] = parts(change), text = this.last;
    this.area.value = text.slice(0, change.start) + wanted + text.slice(change.start + there.length);
    this.last = this.area.value;
    to.push(change);
    this.area.selectionStart = this.area.selectionEnd = change.start + wanted.length;
    this.changed();
  }

  mark() {}

  goTo({ line, column, width = 1 }) {
    const lines = this.area.value.split("\n"), at = Math.min(line, lines.length);
    const before = lines.slice(0, at - 1).reduce((sum, it) => sum + it.length + 1, 0);
    const place = (wanted) => before + placeOf(lines[at - 1], wanted, this.isByBytes);
    this.area.focus();
    this.area.setSelectionRange(place(column), place(column + width));
    this.area.scrollTop = (this.area.scrollHeight * Math.max(0, at - 5)) / lines.length;
  }

  showLine() {}
}

function loaded(kind, attributes) {
  return new Promise((resolve, reject) => {
    const made = Object.assign(document.createElement(kind), attributes);
    made.addEventListener("load", resolve);
    made.addEventListener("error", reject);
    document.head.append(made);
  });
}

// Returns the editor, in its place; `changed` is called after each edit.
export async function editorIn(place, hasMirror, changed) {
  if (!hasMirror) return new PlainEditor(place, changed);
  await Promise.all([loaded("script", { src: "codemirror.js" }), loaded("link", { rel: "stylesheet", href: "codemirror.css" })]);
  const grammar = await fetch("grammar.json");
  if (grammar.ok) {
    const mode = modeOf(await grammar.json());
    CodeMirror.defineMode("dbp", () => mode);
  }
  document.head.append(document.querySelector('link[href="studio.css"]')); // after the styles of CodeMirror
  return new CodeEditor(place, changed);
}
