// The lines of `run --turns N`: N is moved, and the lines stay.

const MOST = 999;

export class Turns {
  constructor(place, ask) {
    this.ask = ask;
    place.innerHTML = `<div class="controls"><label>N <input type="range" min="0" max="${MOST}" value="0" id="turns-slider"></label>
      <label>as a number <input type="text" inputmode="numeric" pattern="[0-9]{1,20}" value="0" id="turns-number"></label></div>
      <p id="turns-told"></p><pre id="turns-lines"></pre>`;
    [this.slider, this.number, this.told, this.lines] = ["slider", "number", "told", "lines"].map((it) => place.querySelector(`#turns-${it}`));
    this.slider.addEventListener("input", () => { this.number.value = this.slider.value; this.ask(); });
    this.number.addEventListener("input", () => {
      if (!this.number.checkValidity() || !this.number.value) return;
      this.slider.value = Math.min(MOST, Number(this.number.value));
      this.ask();
    });
  }

  // Shows the lines of a run, and whether they are those of the meaning and of the run before.
  show({ number, same, count, digest, lines }) {
    this.told.className = same ? "good" : "bad";
    this.told.textContent = `run --turns ${number}: ${count} lines, ${same ? "the same as" : "others than"} those of mean; `
      + `SHA-256 ${digest.slice(0, 16)}..`;
    const more = count > lines.length ? [`.. ${count - lines.length} more`] : [];
    const text = [...lines, ...more].join("\n");
    if (this.lines.textContent !== text) this.lines.textContent = text;
  }

  refuse(text) {
    this.told.className = "bad";
    this.told.textContent = text;
    this.lines.textContent = "";
  }
}
