// The page: a text at the left, and what the server says of it at the right, new after each edit.

import { editorIn } from "./editor.js";
import { Steps } from "./steps.js";
import { Turns } from "./turns.js";

const SOON = 120, LATER = 350; // milliseconds after the last keystroke
const LARGE = 100_000; // letters of a text for which one waits longer
const SHOWN_AFTER = 300; // milliseconds before progress is shown
const LOOK_EVERY = 2_000; // milliseconds between looks at the file
const FRAME_WITHIN = 20_000; // milliseconds after its loading in which a report must be there

const find = (name) => document.getElementById(name);
const say = (place, text, cls = "") => { place.textContent = text; place.className = cls; };

// What is asked of the server, newest first: an answer to an older question is dropped.

class Questions {
  constructor() { Object.assign(this, { asked: {}, page: performance.timeOrigin, turn: 0 }); }

  // Asks a question in place of the last one of its kind, and hands each event of the answer on. The server may get questions
  // in another order, and goes by their turns.
  async ask(kind, words, body, take) {
    this.stop(kind);
    const control = new AbortController();
    this.asked[kind] = control;
    try {
      const asked = new URLSearchParams({ ...words, page: this.page, turn: ++this.turn });
      const answer = await fetch(`${kind}?${asked}`, { method: "POST", body, signal: control.signal });
      if (!answer.ok) throw new Error((await answer.text()).trim());
      for await (const line of linesOf(answer.body)) {
        if (this.asked[kind] !== control) return;
        take(JSON.parse(line));
      }
    } catch (error) {
      if (this.asked[kind] === control && error.name !== "AbortError") take({ kind: "ended", text: `no answer: ${error.message}` });
    } finally {
      if (this.asked[kind] === control) delete this.asked[kind];
    }
  }

  stop(kind) {
    const control = this.asked[kind];
    delete this.asked[kind];
    control?.abort();
  }
}

async function* linesOf(stream) {
  const reader = stream.pipeThrough(new TextDecoderStream()).getReader();
  let parts = [];
  for (;;) {
    const { done, value } = await reader.read();
    if (done) return;
    const [first, ...others] = value.split("\n");
    parts.push(first);
    for (const next of others) {
      yield parts.join("");
      parts = [next];
    }
  }
}

// The report: the next one is made ready behind the one that is shown, and takes its place.

class Report {
  constructor(place, goTo) {
    Object.assign(this, { place, shown: null, coming: null, last: null });
    addEventListener("message", ({ source, data }) => {
      const isShown = source === this.shown?.contentWindow, isComing = source === this.coming?.contentWindow;
      if (isShown && data.kind === "moved") this.last = data.place;
      if (isShown && data.kind === "goTo") goTo(data);
      if (isComing && data.kind === "ready") source.postMessage({ place: this.last }, "*");
      if (isComing && data.kind === "placed") this.swap();
    });
  }

  // Shows a page; `of` says of which edit of the text it is, and whether it is the whole report.
  show(number, of) {
    this.coming?.remove();
    clearTimeout(this.timer);
    const frame = document.createElement("iframe");
    frame.setAttribute("sandbox", "allow-scripts");
    frame.title = "Report";
    frame.className = "coming";
    frame.src = `page?number=${number}`;
    frame.dataset.of = of;
    this.coming = frame;
    this.place.append(frame);
    frame.addEventListener("load", () => { if (frame === this.coming) this.timer = setTimeout(() => this.swap(), FRAME_WITHIN); });
  }

  swap() {
    clearTimeout(this.timer);
    if (!this.coming) return;
    this.shown?.remove();
    this.coming.className = "";
    [this.shown, this.coming] = [this.coming, null];
    this.place.dataset.shown = this.shown.dataset.of;
  }
}

class Studio {
  constructor(about) {
    Object.assign(this, { about, name: null, tab: "report", questions: new Questions(), isDirty: false, known: null, revision: 0 });
    this.report = new Report(find("report-view"), (place) => this.editor.goTo(place));
    this.steps = new Steps(find("steps-view"), (line) => this.editor?.showLine(line));
    this.turns = new Turns(find("turns-view"), () => this.ask("turns"));
  }

  async start() {
    this.editor = await editorIn(find("editor"), this.about.has_codemirror, () => this.changed());
    this.listDocuments();
    find("save").addEventListener("click", () => this.save(this.known));
    find("overwrite").addEventListener("click", () => this.save(this.onDisk));
    find("load").addEventListener("click", () => this.load());
    find("stop").addEventListener("click", () => this.stop());
    for (const tab of ["report", "steps", "turns"]) find(`${tab}-tab`).addEventListener("click", () => this.choose(tab));
    addEventListener("keydown", (event) => {
      if (!(event.ctrlKey || event.metaKey) || event.key !== "s") return;
      event.preventDefault();
      if (!find("save").disabled) this.save(this.known);
    });
    addEventListener("pagehide", () => this.keep());
    setInterval(() => this.look(), LOOK_EVERY);
    const chosen = sessionStorage.getItem(this.key("chosen"));
    await this.open([chosen, ...this.about.own, ...this.about.examples].find((it) => this.all.includes(it)));
    document.documentElement.dataset.ready = "yes";
  }

  get all() { return [...this.about.own, ...this.about.examples]; }

  get isOwn() { return this.about.own.includes(this.name); }

  // What is kept over reloads is of this studio alone, whose address has its own token.
  key(name) { return `${location.pathname} ${name}`; }

  listDocuments() {
    const groups = [["Own", this.about.own], ["Examples, which aren't saved", this.about.examples]];
    find("documents").append(...groups.filter(([, names]) => names.length).map(([label, names]) => {
      const group = Object.assign(document.createElement("optgroup"), { label });
      group.append(...names.map((it) => new Option(it, it)));
      return group;
    }));
    find("documents").addEventListener("change", () => this.open(find("documents").value));
  }

  // Documents.

  async fetched(what, name) {
    const answer = await fetch(`${what}?${new URLSearchParams({ name })}`);
    if (!answer.ok) throw new Error((await answer.text()).trim());
    return answer.json();
  }

  async open(name) {
    if (name === undefined) return say(find("verdict"), "there are no documents", "bad");
    if (this.name) this.keep();
    let there;
    try {
      there = await this.fetched("document", name);
    } catch (error) {
      find("documents").value = this.name ?? name;
      return say(find("verdict"), error.message, "bad");
    }
    Object.assign(this, { name, encoding: there.encoding });
    sessionStorage.setItem(this.key("chosen"), name);
    find("documents").value = name;
    document.title = `${name} - studio`;
    this.warn(null);
    const kept = this.kept(name);
    const isKept = kept && (kept.isDirty || kept.version === there.version);
    this.known = isKept ? kept.version : there.version;
    this.editor.set(isKept ? kept.text : there.text, { encoding: there.encoding, history: isKept ? kept.history : null });
    this.isLossy = !isKept && this.editor.text() !== there.text;
    this.setDirty(isKept && kept.isDirty);
    if (this.known !== there.version) this.warn(there.version);
    this.askAll();
  }

  // Returns what was kept of a document's text before a reload.
  kept(name) {
    try {
      return JSON.parse(sessionStorage.getItem(this.key(`text of ${name}`)));
    } catch {
      return null;
    }
  }

  keep() {
    clearTimeout(this.keeping);
    const text = this.editor.text(), { isDirty, known: version } = this;
    const put = (history) => sessionStorage.setItem(this.key(`text of ${this.name}`), JSON.stringify({ text, isDirty, version, history }));
    try {
      put(this.editor.history());
    } catch {
      try { put(null); } catch { sessionStorage.removeItem(this.key(`text of ${this.name}`)); } // too long to be kept
    }
  }

  // Returns the bytes of the text, as the file has them.
  bytes() {
    const text = this.editor.text();
    if (this.encoding !== "latin-1") return new TextEncoder().encode(text);
    return Uint8Array.from(text, (letter) => (letter.charCodeAt(0) < 256 ? letter.charCodeAt(0) : 63));
  }

  setDirty(isDirty) {
    this.isDirty = isDirty;
    find("save").disabled = !this.isOwn || (!isDirty && this.known !== "none");
    const lossy = this.isLossy ? "; saving makes all line ends alike" : "";
    say(find("saved"), !this.isOwn ? "an example, which isn't saved" : `${isDirty ? "not saved" : "saved"}${lossy}`);
  }

  async save(version) {
    const name = this.name, body = this.bytes(), revision = this.revision;
    const answer = await fetch(`save?${new URLSearchParams({ name, version })}`, { method: "POST", body }).catch((error) => ({ error }));
    if (name !== this.name) return;
    if (answer.status === 412) return this.warn((await answer.json()).version);
    if (!answer.ok) return say(find("saved"), `not saved: ${answer.error?.message ?? (await answer.text()).trim()}`, "bad");
    this.known = (await answer.json()).version;
    this.warn(null);
    this.setDirty(this.revision !== revision);
    this.keep();
  }

  // Warns that the file has another version than the text was made from; without one nothing is to be warned of.
  warn(version) {
    this.onDisk = version;
    find("warning").hidden = version === null;
    if (version === null) return;
    find("load").hidden = version === "none";
    find("warning").firstElementChild.textContent = version === "none" ? `${this.name} was removed from the disk.`
      : `${this.name} was changed on the disk by another program.`;
  }

  // Looks whether the file is still the one that was read.
  async look() {
    if (!this.isOwn || document.hidden || this.isLooking) return;
    this.isLooking = true;
    const { name, known } = this;
    try {
      const { version } = await this.fetched("version", name);
      if (name === this.name && known === this.known) this.warn(version === known ? null : version);
    } catch (error) {
      say(find("saved"), `the file can't be looked at: ${error.message}`, "bad");
    } finally {
      this.isLooking = false;
    }
  }

  // Puts the text of the file in place; one can undo that.
  async load() {
    const there = await this.fetched("document", this.name).catch((error) => ({ error }));
    if (there.error) return say(find("saved"), there.error.message, "bad");
    Object.assign(this, { known: there.version, encoding: there.encoding });
    this.warn(null);
    this.editor.replace(there.text);
    this.setDirty(false);
  }

  // Edits.

  changed() {
    this.revision += 1;
    if (!this.isDirty) this.setDirty(true);
    const size = this.size ?? 0, wait = size > LARGE ? LATER : SOON;
    clearTimeout(this.waiting);
    this.waiting = setTimeout(() => this.askAll(), wait);
    clearTimeout(this.keeping);
    this.keeping = setTimeout(() => requestIdleCallback(() => this.keep()), 10 * wait);
  }

  askAll() {
    this.ask("report");
    if (this.tab !== "report") this.ask(this.tab);
  }

  choose(tab) {
    this.tab = tab;
    for (const it of ["report", "steps", "turns"]) {
      find(`${it}-tab`).setAttribute("aria-selected", it === tab);
      find(`${it}-view`).hidden = it !== tab;
    }
    if (tab !== "steps") this.editor.showLine(0);
    if (tab !== "report") this.ask(tab);
  }

  ask(kind) {
    const body = this.bytes();
    this.size = body.length;
    if (body.length > this.about.most) return this.take(kind, { kind: "ended", text: `the document has more than ${this.about.most} bytes` });
    const words = { name: this.name, number: find("turns-number").value };
    this.begin(kind);
    const { revision } = this;
    this.questions.ask(kind, words, body, (event) => this.take(kind, event, revision));
  }

  // Says after a while what is done, and how long that takes.
  begin(kind) {
    clearInterval(this.ticking);
    const start = performance.now();
    this.doing = { kind, what: kind };
    find("progress").textContent = "";
    find("stop").hidden = true;
    this.ticking = setInterval(() => {
      const passed = performance.now() - start;
      if (passed < SHOWN_AFTER) return;
      find("stop").hidden = false;
      find("progress").textContent = `${this.doing.what}, ${(passed / 1000).toFixed(1)} s`;
    }, 100);
  }

  end(kind) {
    if (this.doing?.kind !== kind) return;
    clearInterval(this.ticking);
    find("progress").textContent = "";
    find("stop").hidden = true;
  }

  stop() {
    const { kind } = this.doing;
    clearTimeout(this.waiting);
    this.questions.stop(kind);
    this.take(kind, { kind: "ended", text: "it was stopped" });
  }

  take(kind, event, revision = this.revision) {
    const view = { steps: this.steps, turns: this.turns }[kind];
    const takes = {
      progress: () => { if (this.doing.kind === kind) this.doing.what = event.what; },
      messages: () => this.showMessages(event),
      report: () => this.showReport(event, revision),
      steps: () => this.steps.show(event),
      lines: () => this.turns.show(event),
      refused: () => view.refuse(event.text),
      ended: () => this.ended(view, kind, event.text),
      done: () => this.end(kind),
    };
    takes[event.kind]();
  }

  ended(view, kind, text) {
    this.end(kind);
    if (view) view.refuse(text);
    else say(find("verdict"), text, "bad");
  }

  showReport({ page, is_whole, headline, good }, revision) {
    this.report.show(page, `${revision} ${is_whole ? "whole" : "part"}`);
    if (is_whole) say(find("verdict"), headline, good ? "good" : "bad");
    else say(find("verdict"), "accepted");
  }

  showMessages({ messages, count }) {
    this.editor.mark(messages);
    find("messages").replaceChildren(...messages.slice(0, 200).map((it) => this.messageOf(it)));
    document.documentElement.dataset.messages = count;
  }

  messageOf(message) {
    const { line, column, severity, code, name } = message;
    const button = document.createElement("button");
    button.type = "button";
    button.textContent = `${line}:${column}: ${severity}: ${code === null ? "" : `${code} `}${name}: ${message.message}`;
    button.addEventListener("click", () => this.editor.goTo(message));
    const item = document.createElement("li");
    item.className = severity;
    item.append(button);
    return item;
  }
}

const answer = await fetch("about");
if (answer.ok) await new Studio(await answer.json()).start();
else say(find("verdict"), (await answer.text()).trim(), "bad");
