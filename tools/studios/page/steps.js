// The steps of a script, forward and back: after each the shared words, what the releaser knows, and the slots.

const AROUND = 4; // steps before and after that are listed

function made(kind, attributes = {}, ...content) {
  const element = Object.assign(document.createElement(kind), attributes);
  element.append(...content);
  return element;
}

export class Steps {
  constructor(place, showLine) {
    Object.assign(this, { place, showLine, at: 0, data: null });
    this.slider = made("input", { type: "range", min: 0, value: 0, id: "step-slider" });
    this.number = made("input", { type: "number", min: 0, value: 0, id: "step-number" });
    for (const it of [this.slider, this.number]) it.addEventListener("input", () => this.go(Number(it.value)));
    const moves = [["|<", "first", () => 0], ["<", "back", () => this.at - 1], [">", "forward", () => this.at + 1],
      [">|", "last", () => this.data.steps.length]];
    const buttons = moves.map(([text, name, step]) => {
      const button = made("button", { type: "button", textContent: text, title: name, id: `step-${name}` });
      button.addEventListener("click", () => this.go(step()));
      return button;
    });
    this.controls = made("div", { className: "controls" }, ...buttons, made("label", {}, "Step ", this.slider),
      made("label", {}, "as a number ", this.number));
    this.told = made("p", { id: "step-told" });
    this.around = made("ol", { className: "around" });
    this.tables = made("div", { id: "step-tables" });
    place.append(this.told, this.controls, this.around, this.tables);
    this.refuse("");
  }

  // Shows why there are no steps.
  refuse(text) {
    this.data = null;
    this.told.textContent = text;
    for (const it of [this.controls, this.around, this.tables]) it.hidden = true;
    this.showLine(0);
  }

  // Shows the steps of a script, at the step at which one was.
  show(data) {
    this.data = data;
    this.before = this.undoing(data);
    this.texts = [...data.start];
    for (const it of [this.controls, this.around, this.tables]) it.hidden = false;
    this.slider.max = this.number.max = data.steps.length;
    const stopped = data.illegal ? ` Then \`${data.illegal.text}\` isn't allowed: ${data.illegal.why}.` : "";
    const more = data.more ? ` ${data.more} more aren't shown.` : "";
    this.about = `${data.steps.length} steps of ${data.origin}.${stopped}${more}`;
    this.told.textContent = this.about;
    this.told.className = data.illegal ? "bad" : "";
    this.cells = new Map();
    this.tables.replaceChildren(...data.tables.map((it) => this.tableOf(it)));
    const at = Math.min(this.at, data.steps.length);
    this.at = 0;
    this.go(at);
  }

  // Returns for each step the texts that its cells had before.
  undoing(data) {
    const texts = [...data.start];
    return data.steps.map(([, , , changes]) => changes.map(([cell, text]) => {
      const old = texts[cell];
      texts[cell] = text;
      return [cell, old];
    }));
  }

  tableOf({ caption, header, rows }) {
    const table = made("table", {}, made("caption", { textContent: caption }));
    const head = table.createTHead().insertRow();
    head.append(...header.map((it) => made("th", { scope: "col", textContent: it })));
    const body = table.createTBody();
    for (const row of rows) {
      const line = body.insertRow();
      for (const it of row) {
        const cell = line.insertCell();
        if (typeof it === "number") this.cells.set(it, cell);
        cell.textContent = typeof it === "number" ? this.texts[it] : it;
      }
    }
    return table;
  }

  put([cell, text]) { this.texts[cell] = text; }

  // Goes to a step: the words are those after it; 0 is before the first.
  go(wanted) {
    if (!this.data) return;
    const { steps } = this.data, at = Math.min(Math.max(0, Math.round(wanted) || 0), steps.length);
    for (; this.at < at; this.at += 1) steps[this.at][3].forEach((it) => this.put(it));
    for (; this.at > at; this.at -= 1) this.before[this.at - 1].forEach((it) => this.put(it));
    const changed = new Set(at ? steps[at - 1][3].map(([cell]) => cell) : []);
    for (const [number, cell] of this.cells) {
      if (cell.textContent !== this.texts[number]) cell.textContent = this.texts[number];
      cell.classList.toggle("changed", changed.has(number));
    }
    this.slider.value = this.number.value = at;
    this.list(at);
    this.showLine(at && this.data.has_lines ? steps[at - 1][2] : 0);
    this.place.dataset.at = at;
  }

  // Lists the steps around the one that was made last.
  list(at) {
    const { steps } = this.data, first = Math.max(0, at - 1 - AROUND), last = Math.min(steps.length, at + AROUND);
    this.around.start = first + 1;
    this.around.replaceChildren(...steps.slice(first, last).map(([text, heard], place) => {
      const line = made("li", { textContent: heard ? `${text} -> ${heard}` : text });
      line.classList.toggle("now", first + place === at - 1);
      return line;
    }));
  }
}
