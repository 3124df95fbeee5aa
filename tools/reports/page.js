"use strict";
(() => {
  const SVG = "http://www.w3.org/2000/svg";
  const LEFT = 190, WIDTH = 1000, RIGHT = 24; // of a picture by ticks
  const TOP = 40, ROW = 68, BAR_AT = 24, BAR = 20; // of a timeline
  const PLOT = 110, PLOT_TOP = 10, PLOT_BOTTOM = 24; // of a plot
  const PAGE_ROWS = 100, PAGE_LINES = 500, MOST_READS = 500, MOST_SHOWN = 3000;

  // Columns.

  function runs(column, take) {
    for (const run of column ? column.split(" ") : []) {
      const star = run.indexOf("*");
      const times = star < 0 ? 1 : Number(run.slice(star + 1));
      const value = star < 0 ? run : run.slice(0, star);
      for (let left = times; left > 0; left -= 1) take(value);
    }
  }

  function texts(column) {
    const found = [];
    runs(column, (value) => found.push(value));
    return found;
  }

  function numbers(column) {
    const found = [];
    let last = 0;
    runs(column, (value) => found.push((last += Number(value))));
    return found;
  }

  // Reads a column once, when it is first asked for.
  function lazy(columns, as) {
    const read = {};
    return new Proxy(columns, { get: (from, name) => (read[name] ??= as(name)(from[name])) });
  }

  const COUNTS = ["late", "spans", "holds", "reads"], NAMES = ["reader"];
  const asCounts = (column) => texts(column).map(Number);
  const reader = (name) => (COUNTS.includes(name) ? asCounts : NAMES.includes(name) ? texts : numbers);

  function sums(counts) {
    const found = [0];
    for (const count of counts) found.push(found[found.length - 1] + count);
    return found;
  }

  // Returns how many of rising numbers are at most a limit.
  function countUpTo(rising, limit) {
    let low = 0, high = rising.length;
    while (low < high) {
      const middle = (low + high) >> 1;
      if (rising[middle] <= limit) low = middle + 1;
      else high = middle;
    }
    return low;
  }

  // Returns the starts and the stops that an instance has among those of all.
  function pairs(starts, stops, firsts, at) {
    const [first, last] = [firsts[at], firsts[at + 1]];
    return starts.slice(first, last).map((start, place) => [start, stops[first + place]]);
  }

  class Task {
    constructor(data, report) {
      Object.assign(this, { name: data.name, about: data.about, slots: data.slots, reads: data.reads, report });
      this.tick = numbers(data.tick);
      this.outs = data.outs.map((out) => lazy(out, (name) => (name === "values" ? texts : (it) => it)));
      if (!data.courses) return;
      this.courses = lazy(data.courses, reader);
      this.links = data.links.map((link) => lazy(link, (name) => (name === "rows" ? numbers : (it) => it)));
      this.stays = Object.fromEntries(Object.entries(data.stays).map(([use, columns]) => [use, lazy(columns, reader)]));
    }

    get firstSpans() { return (this.spanSums ??= sums(this.courses.spans)); }

    get firstHolds() { return (this.holdSums ??= sums(this.courses.holds)); }

    get firstReads() { return (this.readSums ??= sums(this.courses.reads)); }

    // Returns the value of an out of an instance; of number 0 it is the first value.
    value(out, number) { return number === 0 ? this.outs[out].first : this.outs[out].values[number - 1]; }

    spansOf(at) { return pairs(this.courses.start, this.courses.stop, this.firstSpans, at); }

    // Returns the ticks in which an instance is blocked.
    holdsOf(at) { return pairs(this.courses.held, this.courses.freed, this.firstHolds, at); }

    // Returns the reads of an instance: when each is made, and the number of the writer's instance whose outs it gets.
    readsOf(at) {
      const found = [];
      for (let place = this.firstReads[at]; place < this.firstReads[at + 1]; place += 1) {
        const read = this.reads[place - this.firstReads[at]], link = this.links[read.link];
        const writer = this.report.tasks[link.writer], row = link.rows[at];
        found.push({ time: this.courses.read[place], read, link, writer, row, value: writer.value(read.out, row) });
      }
      return found;
    }

    // Returns the places of the instances of which something may be in a window.
    shown(window) {
      const { release } = this.courses;
      const last = countUpTo(release, window.stop);
      let first = Math.max(0, countUpTo(release, window.start) - 1);
      while (first > 0 && this.lastMark(first - 1) >= window.start) first -= 1;
      const found = [];
      for (let at = first; at < last; at += 1) found.push(at);
      return found;
    }

    lastMark(at) { return Math.max(this.courses.end[at], this.courses.cut[at], this.courses.due[at]); }
  }

  // Drawing.

  function shape(parent, kind, attributes, text) {
    const made = document.createElementNS(SVG, kind);
    for (const [name, value] of Object.entries(attributes)) made.setAttribute(name, value);
    if (text !== undefined) made.textContent = text;
    parent.append(made);
    return made;
  }

  // Draws a shape that says what it is when one points at it.
  function told(parent, kind, attributes, about) {
    const made = shape(parent, kind, attributes);
    shape(made, "title", {}, about);
    return made;
  }

  class Picture {
    constructor(svg, window, height) {
      Object.assign(this, { svg, window });
      this.description = svg.querySelector("desc");
      svg.replaceChildren(this.description);
      svg.setAttribute("viewBox", `0 0 ${WIDTH} ${height}`);
      svg.setAttribute("width", WIDTH);
      this.back = shape(svg, "g", {});
    }

    x(time) {
      const { start, stop } = this.window;
      const clipped = Math.min(Math.max(time, start), stop);
      return LEFT + ((WIDTH - LEFT - RIGHT) * (clipped - start)) / (stop - start);
    }

    shows(start, stop) { return start <= this.window.stop && stop >= this.window.start; }

    line(x, y, toX, toY, cls) { shape(this.back, "path", { d: `M ${x} ${y} L ${toX} ${toY}`, class: cls }); }

    text(x, y, text, cls) { shape(this.svg, "text", { x, y, class: cls }, text); }

    axis(y, top, bottom) {
      const { start, stop } = this.window;
      const step = tickStep(start, stop);
      for (let time = Math.ceil(start / step) * step; time <= stop; time += step) {
        this.line(this.x(time), top, this.x(time), bottom, "grid");
        this.text(this.x(time), y, String(time), "tick");
      }
    }

    describe(text) { this.description.textContent = text; }
  }

  // Returns how many ticks apart the numbers of an axis are: 1, 2 or 5 times a power of 10.
  function tickStep(start, stop) {
    const least = ((stop - start) * (String(stop).length * 8 + 16)) / (WIDTH - LEFT - RIGHT);
    for (let power = 1; ; power *= 10) {
      for (const step of [power, 2 * power, 5 * power]) if (step >= least) return step;
    }
  }

  // The timeline.

  class Timeline extends Picture {
    constructor(report, svg) {
      super(svg, report.window, TOP + ROW * report.order.length + 12);
      this.report = report;
      this.rows = new Map(report.order.map((task, row) => [report.tasks[task], TOP + ROW * row]));
      this.bottom = TOP + ROW * report.order.length;
      this.places = new Map(); // of reads, by where they are drawn
      [this.arrows, this.bars, this.marks] = [0, 1, 2].map(() => shape(svg, "g", {}));
    }

    draw() {
      this.axis(TOP - 12, TOP - 6, this.bottom);
      const drawn = [...this.rows].map(([task, y]) => [task, y, task.shown(this.window)]);
      const count = drawn.reduce((sum, [, , places]) => sum + places.length, 0);
      for (const [task, y, places] of drawn) this.drawTask(task, y, places);
      for (const [task, , places] of drawn) for (const at of places) this.drawReads(task, at, count);
      this.drawMarks();
      this.drawOverrun();
      const { start, stop } = this.window;
      this.describe(`${this.report.tasks.length} tasks from tick ${start} to ${stop}, with ${count} instances: when each `
        + "waits, is served, reads and ends. The same reads are in the table below.");
      this.line(this.x(this.report.tick), TOP - 6, this.x(this.report.tick), this.bottom, "cursor");
    }

    drawTask(task, y, places) {
      this.text(16, y + 26, task.name, "name");
      task.about.forEach((line, number) => this.text(16, y + 41 + 14 * number, line, "small"));
      this.line(LEFT, y + BAR_AT + BAR, WIDTH - RIGHT, y + BAR_AT + BAR, "base");
      for (const at of places) this.drawCourse(task, at, y + BAR_AT);
    }

    drawCourse(task, at, y) {
      const { release, begin, end, cut, due, late } = task.courses;
      const title = `${task.name} ${at + 1}`, spans = task.spansOf(at);
      const last = cut[at] < 0 ? [] : [[cut[at], cut[at]]];
      this.bar(release[at], begin[at] < 0 ? cut[at] : begin[at], y + BAR - 8, 8, "waiting", `${title} waits`);
      [...spans, ...last].forEach(([start], place) => {
        if (place) this.bar(spans[place - 1][1], start, y + BAR - 8, 8, "preempted", `${title} is preempted`);
      });
      for (const [start, stop] of task.holdsOf(at)) {
        this.bar(start, stop, y + BAR - 8, 8, "blocked", `${title} is blocked from ${start} to ${stop}`);
      }
      for (const [start, stop] of spans) this.drawSpan(start, stop, y, title, at + 1);
      if (end[at] >= 0 && this.shows(end[at], end[at])) {
        const x = this.x(end[at]), about = `${title} ends at ${end[at]}${late[at] ? ", after its deadline" : ""}`;
        told(this.marks, "path", { d: `M ${x} ${y - 3} L ${x} ${y + BAR + 3}`, class: late[at] ? "late" : "end" }, about);
      }
      this.flag(release[at], y + BAR, 7, "release", `release of ${title}: ${release[at]}`);
      if (due[at] >= 0) this.flag(due[at], y + BAR, -7, "due", `${title} must have ended: ${due[at]}`);
    }

    drawSpan(start, stop, y, title, number) {
      const width = this.bar(start, stop, y, BAR, "served", `${title} is served from ${start} to ${stop}`);
      const text = String(number), x = (this.x(start) + this.x(stop)) / 2;
      if (width >= 8 * text.length + 6) shape(this.marks, "text", { x, y: y + 14.5, class: "number" }, text);
    }

    bar(start, stop, y, height, cls, about) {
      if (stop <= start || !this.shows(start, stop)) return 0;
      const x = this.x(start), width = this.x(stop) - x;
      if (width > 0) told(this.bars, "rect", { x, y, width: Math.max(1.5, width), height, class: cls }, about);
      return width;
    }

    flag(time, y, side, cls, about) {
      if (!this.shows(time, time)) return;
      const x = this.x(time);
      told(this.marks, "path", { d: `M ${x} ${y + 4} L ${x} ${y + 18} L ${x + side} ${y + 14} L ${x} ${y + 10}`, class: cls }, about);
    }

    drawReads(task, at, count) {
      for (const made of task.readsOf(at)) {
        if (!this.shows(made.time, made.time)) continue;
        const isBelow = this.rows.get(task) > this.rows.get(made.writer);
        const x = this.x(made.time), y = this.rows.get(task) + BAR_AT + (isBelow ? 0 : BAR);
        if (made.row && count < 400) this.drawArrow(made, x, y);
        const place = this.places.get(`${x} ${y}`) ?? { x, y, abouts: [], isFirst: false };
        place.abouts.push(readWords(task, at, made));
        place.isFirst ||= !made.row;
        this.places.set(`${x} ${y}`, place);
      }
    }

    // Draws the marks of reads, one for all that are made at the same place.
    drawMarks() {
      for (const { x, y, abouts, isFirst } of this.places.values()) {
        const about = abouts.join("\n"), at = { cx: x, cy: y, "data-read": about };
        told(this.marks, "circle", { ...at, r: 3.4, class: "read-mark" }, about);
        if (isFirst) told(this.marks, "circle", { ...at, r: 1.7, class: "first" }, about);
      }
    }

    // Draws the arrow from the end of the instance whose outs are read.
    drawArrow(made, x, y) {
      const from = this.x(made.writer.courses.end[made.row - 1]);
      const top = this.rows.get(made.writer) + BAR_AT, isDown = top < y;
      const start = isDown ? top + BAR + 3 : top - 3, bend = (y - start) / 2, reach = Math.min(60, (x - from) / 2);
      const d = isDown
        ? `M ${from} ${start} C ${from} ${start + bend} ${x} ${y - 4 - bend} ${x} ${y - 4}`
        : `M ${from} ${start} C ${from} ${start + bend} ${x - reach} ${y + 4} ${x - Math.min(4, reach)} ${y + 2}`;
      const cls = made.link.delay ? "delayed" : "direct";
      shape(this.arrows, "path", { d, class: "halo" });
      shape(this.arrows, "path", { d, class: cls, "marker-end": `url(#${cls}-head)` });
    }

    drawOverrun() {
      const overrun = this.report.overrun;
      if (!overrun || !this.shows(overrun.time, overrun.time)) return;
      const x = this.x(overrun.time), text = `overrun: ${overrun.task} ${overrun.number} at ${overrun.time}`;
      this.line(x, TOP - 6, x, this.bottom, "overrun");
      const task = this.report.tasks.find((it) => it.name === overrun.task);
      const left = Math.min(x + 8, WIDTH - RIGHT - 9 * text.length);
      this.text(left, this.rows.get(task) + BAR_AT - 8, text, "loud");
    }
  }

  function readWords(task, at, { time, read, link, writer, row, value }) {
    const from = row ? `the outs of ${writer.name} ${row}` : `the first values of ${writer.name}`;
    const delay = link.delay ? ` (pre ${link.delay})` : "";
    return `${task.name} ${at + 1} reads ${from} at ${time}${delay}: ${read.name} = ${value}`;
  }

  // Plots.

  class Plot extends Picture {
    constructor(report, svg, task, out) {
      super(svg, report.window, PLOT);
      Object.assign(this, { task, out, report, until: report.until });
      this.base = PLOT - PLOT_BOTTOM;
    }

    // Returns the ticks and the values of the steps in the window; the first one is of the time before it.
    steps() {
      const { tick } = this.task, values = this.task.outs[this.out].values;
      const first = countUpTo(tick, this.window.start), last = countUpTo(tick, this.window.stop);
      const found = [[this.window.start, this.task.value(this.out, first), first]];
      for (let at = first; at < last; at += 1) found.push([tick[at], values[at], at + 1]);
      return found;
    }

    draw() {
      const steps = this.steps();
      const ranked = steps.map(([, value]) => value).sort((one, other) => Number(one) - Number(other));
      const [least, greatest] = [ranked[0], ranked[ranked.length - 1]];
      const span = Number(greatest) - Number(least);
      const y = (value) => (span ? this.base - ((this.base - PLOT_TOP) * (Number(value) - Number(least))) / span
        : (this.base + PLOT_TOP) / 2);
      this.axis(PLOT - 6, PLOT_TOP, this.base);
      this.line(LEFT, this.base, WIDTH - RIGHT, this.base, "base");
      for (const value of new Set([least, greatest])) this.text(LEFT - 6, y(value) + 4, value, "value");
      this.drawSteps(steps, y);
      this.describe(`${steps.length - 1} steps from tick ${this.window.start} to ${this.window.stop}; the least value is `
        + `${least}, the greatest ${greatest}. The same values are in the table below.`);
      this.line(this.x(this.report.tick), PLOT_TOP, this.x(this.report.tick), this.base, "cursor");
    }

    drawSteps(steps, y) {
      const [[start, value, number], ...others] = steps;
      const end = this.x(Math.max(this.window.start, Math.min(this.window.stop, this.until)));
      const begins = number || !others.length ? this.x(start) : this.x(others[0][0]);
      if (!number) this.line(this.x(start), y(value), others.length ? begins : end, y(value), "before");
      const path = number ? [`M ${begins} ${y(value)}`] : others.length ? [`M ${begins} ${y(others[0][1])}`] : [];
      for (const [tick, next] of others) path.push(`H ${this.x(tick)} V ${y(next)}`);
      if (path.length) shape(this.svg, "path", { d: `${path.join(" ")} H ${end}`, class: "plot" });
      if (others.length > 300) return;
      for (const [tick, next, at] of others) {
        told(this.svg, "circle", { cx: this.x(tick), cy: y(next), r: 2.4, class: "dot" }, `${this.task.name} ${at} at ${tick}: ${next}`);
      }
    }
  }

  // Tables.

  function cell(row, text) { row.insertCell().textContent = text; }

  function fill(table, rows) {
    const body = table.tBodies[0] ?? table.createTBody();
    body.replaceChildren();
    for (const cells of rows) {
      const row = body.insertRow();
      for (const text of cells) cell(row, text);
    }
  }

  // Shows one page of rows after another.
  class Pager {
    constructor(place, count, size, show) {
      Object.assign(this, { count, size, show, page: 0 });
      this.pages = Math.max(1, Math.ceil(count / size));
      if (this.pages > 1) {
        this.told = document.createElement("output");
        const buttons = [["first", () => 0], ["previous", () => this.page - 1], ["next", () => this.page + 1], ["last", () => this.pages]];
        place.append(...buttons.map(([name, page]) => button(name, () => this.go(page()))), this.told);
      }
      this.go(0);
    }

    go(page) {
      this.page = Math.min(Math.max(0, page), this.pages - 1);
      const first = this.page * this.size, stop = Math.min(this.count, first + this.size);
      if (this.told) this.told.textContent = `${first + 1} to ${stop} of ${this.count}`;
      this.show(first, stop);
    }
  }

  function button(name, act) {
    const made = document.createElement("button");
    made.type = "button";
    made.textContent = name;
    made.addEventListener("click", act);
    return made;
  }

  // The report of a document.

  class Report {
    constructor(article, data) {
      Object.assign(this, { article, data, order: data.order ?? [], until: data.until, overrun: data.overrun, tick: data.start });
      this.tasks = data.tasks.map((task) => new Task(task, this));
      this.length = data.length;
      this.hasSimulation = this.tasks.some((task) => task.courses);
    }

    find(selector) { return this.article.querySelector(selector); }

    start() {
      this.startSource();
      if (!this.data.order) return;
      this.tasks.forEach((task, at) => this.startTable(task, at));
      this.startControls();
      this.setTick(this.data.start);
    }

    startSource() {
      const lines = this.data.lines, list = this.find("ol.paged");
      if (!list) return;
      const show = (first, stop) => this.showLines(list, lines, first, stop);
      this.pager = new Pager(this.find('[data-of="lines"]'), lines.length, PAGE_LINES, show);
    }

    showLines(list, lines, first, stop) {
      list.replaceChildren();
      list.start = first + 1;
      lines.slice(first, stop).forEach((parts, place) => {
        const line = document.createElement("li"), code = document.createElement("code");
        line.id = `${this.article.id}-l-${first + place + 1}`;
        for (let at = 0; at < parts.length; at += 2) {
          const run = document.createElement("span");
          if (parts[at]) run.className = parts[at];
          run.textContent = parts[at + 1];
          code.append(run);
        }
        line.append(code);
        list.append(line);
      });
    }

    // Shows the page of a line that a link leads to.
    goTo(hash) {
      const found = /^#(.*)-l-(\d+)$/.exec(hash);
      if (!found || found[1] !== this.article.id || !this.pager) return;
      this.pager.go(Math.floor((Number(found[2]) - 1) / PAGE_LINES));
      const line = document.getElementById(hash.slice(1));
      if (!line) return;
      line.classList.add("target");
      line.scrollIntoView();
    }

    startTable(task, at) {
      const table = document.getElementById(`${this.article.id}-table-${at}`);
      const row = (number) => [task.tick[number], number + 1, ...task.outs.map((out) => out.values[number])];
      const show = (first, stop) => fill(table, Array.from({ length: stop - first }, (_, place) => row(first + place)));
      new Pager(this.find(`[data-of="table-${at}"]`), task.tick.length, PAGE_ROWS, show);
    }

    startControls() {
      if (!this.hasSimulation) return;
      const [slider, number, length, slots, svg] = [".tick-slider", ".tick-number", ".length", ".slot-task", "figure svg[id$='-timeline']"]
        .map((it) => this.find(it));
      for (const it of [slider, number]) {
        it.max = this.data.last;
        it.addEventListener("input", () => this.setTick(Number(it.value)));
      }
      length.replaceChildren(...this.lengths().map((ticks) => new Option(String(ticks), ticks, false, ticks === this.length)));
      length.addEventListener("change", () => { this.length = Number(length.value); this.setTick(this.tick); });
      slots?.addEventListener("change", () => this.showSlots());
      const point = (event) => { const about = event.target.dataset?.read; if (about) this.find(".pointed").textContent = about; };
      svg.addEventListener("pointerover", point);
      svg.addEventListener("click", point);
    }

    // Returns how many ticks may be shown: as many as can be drawn.
    lengths() {
      const { last, length, instances } = this.data;
      const found = [0.25, 0.5, 1, 2, 4, 8, 16].map((times) => Math.round(length * times));
      const can = [...found, last].filter((ticks) => ticks === length || (ticks > 0 && ticks <= last && (instances * ticks) / last < MOST_SHOWN));
      return [...new Set(can)].sort((one, other) => one - other);
    }

    setTick(tick) {
      this.tick = Math.min(Math.max(0, Math.round(tick) || 0), this.data.last);
      const start = Math.max(0, Math.min(this.tick - Math.floor(this.length / 2), this.data.last - this.length));
      this.window = { start, stop: start + this.length };
      for (const it of [".tick-slider", ".tick-number"]) if (this.find(it)) this.find(it).value = this.tick;
      if (!this.isWaiting) requestAnimationFrame(() => { this.isWaiting = false; this.draw(); });
      this.isWaiting = true;
    }

    draw() {
      const { start, stop } = this.window, shown = this.find(".shown");
      if (shown) shown.textContent = `ticks ${start} to ${stop} of ${this.data.last}`;
      if (this.hasSimulation) this.drawTimes();
      this.tasks.forEach((task, at) => task.outs.forEach((_, out) => {
        new Plot(this, document.getElementById(`${this.article.id}-plot-${at}-${out}`), task, out).draw();
      }));
      this.article.dataset.drawn = `${this.tick} ${start} ${stop}`;
    }

    drawTimes() {
      new Timeline(this, document.getElementById(`${this.article.id}-timeline`)).draw();
      this.showSlots();
      this.showReads();
    }

    showReads() {
      const rows = [];
      for (const task of this.order.map((at) => this.tasks[at])) {
        for (const at of task.shown(this.window)) {
          for (const made of task.readsOf(at)) {
            const isShown = made.time >= this.window.start && made.time <= this.window.stop;
            if (isShown && rows.length < MOST_READS) rows.push([made.time, made.read.name, `${task.name} ${at + 1}`, `${made.writer.name} ${made.row}`, made.value]);
          }
        }
      }
      rows.sort((one, other) => one[0] - other[0]);
      fill(this.find("table.reads"), rows);
    }

    showSlots() {
      const chosen = this.find(".slot-task");
      const task = chosen && this.tasks[Number(chosen.value)];
      if (!task) return;
      const rows = Array.from({ length: task.slots }, (_, slot) => [String(slot), ...this.slotCells(task, slot)]);
      const table = this.find("table.slots");
      table.caption.textContent = `Slots of ${task.name} after all steps of tick ${this.tick}`;
      fill(table, rows);
    }

    slotCells(task, slot) {
      const words = { held: () => "", aimed: () => "", kept: () => "", claimed: (stays, at) => {
        const { reader, number, ended } = stays;
        const isUnseen = ended[at] >= 0 && ended[at] <= this.tick;
        return ` by ${reader[at]} ${number[at]}${isUnseen ? ", which has ended, not seen yet" : ""}`;
      } };
      return Object.entries(words).map(([use, rest]) => {
        const stays = task.stays[use], found = [];
        for (let at = countUpTo(stays.start, this.tick) - 1; at >= 0; at -= 1) {
          if (stays.slot[at] === slot && stays.stop[at] > this.tick) found.unshift(`row ${stays.row[at]}${rest(stays, at)}`);
        }
        return found.join("; ");
      });
    }
  }

  // The page.

  async function dataOf(article) {
    const script = article.querySelector("script.data");
    if (!script.dataset.packed) return JSON.parse(script.textContent);
    const bytes = Uint8Array.from(atob(script.textContent), (letter) => letter.charCodeAt(0));
    const stream = new Blob([bytes]).stream().pipeThrough(new DecompressionStream(script.dataset.packed));
    return new Response(stream).json();
  }

  async function start() {
    const reports = [];
    for (const article of document.querySelectorAll("article")) {
      const report = new Report(article, await dataOf(article));
      reports.push(report);
      report.start();
    }
    const go = () => reports.forEach((report) => report.goTo(location.hash));
    addEventListener("hashchange", go);
    go();
    document.documentElement.dataset.ready = "yes";
  }

  start();
})();
