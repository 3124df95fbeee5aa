// The colours of a text, by the TextMate grammar of editors/: as much of that form as the grammar uses.

const STYLES = [
  ["comment", "comment"], ["invalid", "error"], ["constant.numeric", "number"], ["keyword.operator.symbol", "operator"],
  ["keyword", "keyword"], ["storage", "keyword"], ["support", "keyword"], ["variable", "variable"], ["punctuation", "operator"],
];

function styleOf(scope) {
  return STYLES.find(([start]) => scope?.startsWith(start))?.[1] ?? null;
}

function compiled(source) {
  return source === undefined ? null : new RegExp(source, "dy");
}

class Grammar {
  constructor(grammar) {
    this.repository = Object.fromEntries(Object.entries(grammar.repository).map(([name, rule]) => [name, this.rule(rule)]));
    this.top = { patterns: grammar.patterns.map((it) => this.rule(it)), end: null, style: null };
  }

  rule({ include, match, begin, end, name, captures, beginCaptures, patterns = [] }) {
    return {
      include: include?.slice(1), start: compiled(match ?? begin), end: compiled(end), isOpening: begin !== undefined,
      style: styleOf(name), captures: captures ?? beginCaptures ?? {}, patterns: patterns.map((it) => this.rule(it)),
    };
  }

  // Returns the rules that may begin inside of one, in the order in which they are tried.
  inside(rule) {
    rule.all ??= rule.patterns.flatMap((it) => {
      const named = it.include === undefined ? it : this.repository[it.include];
      return named.start ? [named] : this.inside(named);
    });
    return rule.all;
  }
}

function matched(pattern, line, at) {
  if (!pattern) return null;
  pattern.lastIndex = at;
  return pattern.exec(line);
}

// Returns the mode of CodeMirror for a grammar.
export function modeOf(json) {
  const grammar = new Grammar(json);
  const open = (state) => state.open[state.open.length - 1];

  // Cuts what a rule has matched into runs: its captures have styles of their own.
  function runsOf(rule, found, outer) {
    const runs = [], style = rule.style ?? outer;
    let at = found.index;
    for (let number = 1; number < found.length; number += 1) {
      const range = found.indices[number];
      if (!range || !rule.captures[number]) continue;
      runs.push([range[0], at === range[0] ? null : style], [range[1], styleOf(rule.captures[number].name)]);
      at = range[1];
    }
    runs.push([found.index + found[0].length, style]);
    return runs;
  }

  // Begins what matches at a place; returns whether something does.
  function begin(state, line, at) {
    const rule = grammar.inside(open(state)).find((it) => matched(it.start, line, at));
    if (!rule) return false;
    state.runs = runsOf(rule, matched(rule.start, line, at), open(state).style);
    if (rule.isOpening) state.open = [...state.open, rule];
    return true;
  }

  function close(state, line, at) {
    while (matched(open(state).end, line, at)) state.open = state.open.slice(0, -1);
  }

  return {
    startState: () => ({ open: [grammar.top], runs: [] }),
    copyState: (state) => ({ open: state.open, runs: state.runs }),
    token(stream, state) {
      if (stream.sol()) state.runs = [];
      while (state.runs.length && state.runs[0][0] <= stream.pos) state.runs.shift();
      if (!state.runs.length) {
        close(state, stream.string, stream.pos);
        const style = open(state).style;
        const from = stream.pos;
        while (!stream.eol() && !begin(state, stream.string, stream.pos)) stream.pos += 1;
        if (stream.pos > from) {
          close(state, stream.string, stream.eol() ? stream.pos : from);
          return style;
        }
        while (state.runs.length && state.runs[0][0] <= stream.pos) state.runs.shift();
      }
      const [end, style] = state.runs.shift();
      stream.pos = end;
      if (stream.eol()) close(state, stream.string, stream.pos);
      return style;
    },
  };
}
