"""The highlighting of editors/: the classes that Vim and the TextMate grammar give the bytes of the examples are those
of a tokenizer that follows docs/LANGUAGE.md. The trial of Vim is skipped if Vim isn't on the machine."""

import json
import re
import subprocess
import sys
import tempfile
from dataclasses import dataclass
from enum import Enum
from functools import partial
from pathlib import Path

TOP = Path(__file__).resolve().parents[2]
sys.path.insert(0, str(TOP / ".ci"))

from awaited import SECONDS  # noqa: E402
from comparing import lack_of  # noqa: E402
from stand_ins import write_program  # noqa: E402

VIM = TOP / "editors" / "vim"
VSCODE = TOP / "editors" / "vscode"
WRITTEN = Path(__file__).resolve().parent / "editors"
TOKENS = WRITTEN / "tokens.dbp"


class Class(Enum):
    """What a byte belongs to."""

    BLANK = "blank"
    COMMENT = "comment"
    KEYWORD = "keyword"
    NAME = "name"
    NUMBER = "number"
    SYMBOL = "symbol"
    ERROR = "error"


class Section(Enum):
    """A part of a document, which has tokens of its own."""

    DIAGRAM = "diagram"
    TRACE = "trace"
    SCRIPT = "script"


class Operand(Enum):
    """A symbol after which a minus is an operator."""

    PARENTHESIS = ")"


LONGEST_NAME = 24


def documents():
    """Returns the documents whose bytes are compared."""
    return [*sorted(WRITTEN.glob("*.dbp")), *sorted((TOP / "examples").rglob("*.dbp"))]


def lines_of(document):
    """Returns the lines of a document, with a character for each byte; an empty text has an empty line, as in Vim."""
    return re.split("\r?\n", document.read_bytes().decode("latin-1").removesuffix("\n"))


# The tokenizer.

LANGUAGE = (TOP / "docs" / "LANGUAGE.md").read_text()
RESERVED = re.search(r"\*\*Keywords\*\* are `([a-z ]+)`", LANGUAGE)[1].split()
STEPS = list(dict.fromkeys(re.findall(r"(?m)^\| `([a-z]+) T[ `]", LANGUAGE)))

SYMBOLS = r"==|!=|<=|>=|[=<>+\-*/%(),.]"
NUMBER = r"(?P<sign>-(?=\d))|(?P<number>\d+)(?P<bad>[A-Za-z_]\w*)?"
TOKEN = re.compile(rf"(?P<comment>#)|{NUMBER}|(?P<word>[A-Za-z_]\w*)|(?P<symbol>{SYMBOLS})", re.ASCII)


def is_allowed(byte):
    """Returns whether a byte may stand in a comment."""
    return " " <= byte <= "~" or byte == "\t"


def classes_of_tokens(line, section):
    """Returns the class of each byte of a line of the diagram or the script."""
    found, last = [], None
    while len(found) < len(line):
        at = len(found)
        token = TOKEN.match(line, at)
        if line[at] in " \t\r":
            found.append(Class.BLANK)
        elif not token:
            found.append(Class.ERROR)
            last = Class.ERROR
        elif token["comment"]:
            found += [Class.COMMENT if is_allowed(byte) else Class.ERROR for byte in line[at:]]
        else:
            is_first = section is Section.SCRIPT and last is None
            size, last = size_and_class(token, TOKEN.match(line, at + 1), last, RESERVED + STEPS * is_first)
            found += [Class.SYMBOL if last is Operand.PARENTHESIS else last] * size
    return found


def size_and_class(token, after_sign, last, reserved):
    """Returns how many bytes a token has, and its class; `after_sign` is the token one byte later."""
    if token["sign"] and last not in (Class.NAME, Class.NUMBER, Operand.PARENTHESIS):
        return 1 + len(after_sign[0]), Class.ERROR if after_sign["bad"] else Class.NUMBER
    if token["sign"] or token["symbol"]:
        return len(token[0]), Operand.PARENTHESIS if token[0] == ")" else Class.SYMBOL
    if token["number"]:
        return len(token[0]), Class.ERROR if token["bad"] else Class.NUMBER
    if token[0] in reserved:
        return len(token[0]), Class.KEYWORD
    return len(token[0]), Class.ERROR if len(token[0]) > LONGEST_NAME else Class.NAME


CELL_PARTS = (
    (Class.KEYWORD, r"(?<![^ \t])time(?=[ \t]*(?:,|$))"),
    (Class.NAME, r"[A-Za-z_]\w*"),
    (Class.ERROR, r"-?\d+[A-Za-z_]\w*"),
    (Class.NUMBER, r"-?\d+"),
    (Class.SYMBOL, r","),
    (Class.BLANK, r"[ \t\r]"),
    (Class.ERROR, r"."),
)


def classes_of_cells(line):
    """Returns the class of each byte of a line of the trace."""
    found = []
    while len(found) < len(line):
        for kind, pattern in CELL_PARTS:
            part = re.compile(pattern, re.ASCII).match(line, len(found))
            if part and not (kind is Class.KEYWORD and line[: part.start()].strip()):
                found += [kind] * len(part[0])
                break
    return found


def section_after(line, section):
    """Returns the section that a line stands in, and the section of the line after it."""
    tokens = line.partition("#")[0].split()
    if section is Section.TRACE and line.strip(" \t\r") not in ("script", "done"):
        return Section.TRACE, Section.TRACE
    if section is Section.SCRIPT and tokens != ["done"]:
        return Section.SCRIPT, Section.SCRIPT
    openings = {} if section is Section.SCRIPT else {"trace": Section.TRACE, "script": Section.SCRIPT}
    return Section.DIAGRAM, openings.get(" ".join(tokens), Section.DIAGRAM)


def classes_by_language(lines):
    """Returns the class of each byte of each line, by the rules of the language."""
    found, section = [], Section.DIAGRAM
    for line in lines:
        own, section = section_after(line, section)
        found.append(classes_of_cells(line) if own is Section.TRACE else classes_of_tokens(line, own))
    return found


# Vim.

VIM_CLASSES = {
    "": Class.BLANK,
    "dbpTraceLine": Class.BLANK,
    "dbpScriptLine": Class.BLANK,
    "dbpTrace": Class.BLANK,
    "dbpScript": Class.BLANK,
    "dbpComment": Class.COMMENT,
    "dbpTodo": Class.COMMENT,
    "dbpName": Class.NAME,
    "dbpTraceName": Class.NAME,
    "dbpNumber": Class.NUMBER,
    "dbpTraceNumber": Class.NUMBER,
    "dbpSymbol": Class.SYMBOL,
    "dbpMinus": Class.SYMBOL,
    "dbpTraceComma": Class.SYMBOL,
    "dbpError": Class.ERROR,
    "dbpTraceError": Class.ERROR,
    "dbpBadByte": Class.ERROR,
    "dbpHeader": Class.KEYWORD,
    "dbpDeclaration": Class.KEYWORD,
    "dbpPart": Class.KEYWORD,
    "dbpClause": Class.KEYWORD,
    "dbpConditional": Class.KEYWORD,
    "dbpLogic": Class.KEYWORD,
    "dbpFunction": Class.KEYWORD,
    "dbpSection": Class.KEYWORD,
    "dbpStep": Class.KEYWORD,
    "dbpTraceTime": Class.KEYWORD,
}

# Writes the group of each byte of each line of the files that g:documents lists, and the problems that `:make` finds
# with the checker g:checker.
VIM_SCRIPT = """
filetype plugin on
syntax on
let g:found = {"groups": []}
for g:document in g:documents
  execute "edit" fnameescape(g:document)
  let g:lines = []
  for g:line in range(1, line("$"))
    call add(g:lines, map(range(1, col([g:line, "$"]) - 1), 'synIDattr(synID(g:line, v:val, 1), "name")'))
  endfor
  call add(g:found.groups, g:lines)
endfor
let g:found.makeprg = &makeprg
let g:dbp_check = g:checker
compiler dbp
silent make!
let g:found.problems = map(getqflist(), '[bufname(v:val.bufnr), v:val.lnum, v:val.col, v:val.type, v:val.text]')
call writefile([json_encode(g:found)], g:answer)
qall!
"""

# Problems: their file, line, column, severity and text; and the lines that tell them.
PROBLEMS = (
    ("a b.dbp", 12, 3, "error", "11 Unknown: no state, sense, read or let of its task: z"),
    ("a b.dbp", 4, 10, "warning", "unread: the out y is read by no task"),
    ("a b.dbp", 3, 6, "note", "the task is declared here"),
)
SAID = tuple("{}:{}:{}: {}: {}".format(*problem) for problem in PROBLEMS)
SHOWN = ("   12 |   let a = z", "      |           ^")


def answer_of_vim():
    """Returns what Vim gives for the documents, and for a checker that tells the problems."""
    with tempfile.TemporaryDirectory() as room:
        answer, script, checker = (Path(room) / name for name in ("answer", "script.vim", "a checker"))
        script.write_text(VIM_SCRIPT)
        write_program(checker, "#!/bin/sh\ncat << 'END'\n{}\nEND\nexit 1\n".format("\n".join([*SAID, *SHOWN])))
        values = {"documents": [str(it) for it in documents()], "checker": str(checker), "answer": str(answer)}
        settings = [f"let g:{name} = {json.dumps(value)}" for name, value in values.items()]
        settings += ["set encoding=latin1 fileencodings=latin1 fileformats=unix,dos", f"set runtimepath^={VIM}"]
        words = ["vim", "-es", "-N", "-u", "NONE", "-i", "NONE", "-n"]
        words += [word for setting in settings for word in ("--cmd", setting)]
        subprocess.run([*words, "-S", script], cwd=TOP, stdin=subprocess.DEVNULL, capture_output=True, timeout=SECONDS)
        return json.loads(answer.read_text(encoding="latin-1"))


# The TextMate grammar, by an interpreter of what this grammar uses.

TEXTMATE_CLASSES = {
    "comment": Class.COMMENT,
    "invalid.illegal": Class.ERROR,
    "keyword.operator.symbol": Class.SYMBOL,
    "punctuation": Class.SYMBOL,
    "keyword": Class.KEYWORD,
    "storage.type": Class.KEYWORD,
    "support.function": Class.KEYWORD,
    "variable.other": Class.NAME,
    "constant.numeric": Class.NUMBER,
    "meta": Class.BLANK,
}
RULE_KEYS = {"name", "match", "begin", "end", "captures", "beginCaptures", "patterns", "include", "comment"}


def class_of_scope(scope):
    """Returns the class of the scope that the grammar gives."""
    return next(kind for prefix, kind in TEXTMATE_CLASSES.items() if scope.startswith(f"{prefix}."))


@dataclass
class Grammar:
    """A TextMate grammar, and the rules that are open at the start of the next line."""

    rules: dict
    repository: dict
    open: list

    def leaves(self, rules):
        """Yields the rules that match by themselves, in their order."""
        for rule in rules:
            if not set(rule) <= RULE_KEYS:
                raise ValueError(f"the grammar has a rule that isn't known here: {sorted(rule)}")
            if "include" in rule:
                yield from self.leaves([self.repository[rule["include"][1:]]])
            elif "match" in rule or "begin" in rule:
                yield rule
            else:
                yield from self.leaves(rule["patterns"])

    def first_match(self, line, at):
        """Returns the first match at or after a place, with its rule; without a rule it ends the open one."""
        inner = self.open[-1] if self.open else self.rules
        tried = [(None, inner["end"])] if self.open else []
        tried += [(rule, rule.get("match") or rule["begin"]) for rule in self.leaves(inner["patterns"])]
        found = [(re.compile(pattern, re.ASCII).search(line, at), rule) for rule, pattern in tried]
        return min((it for it in found if it[0]), key=lambda it: it[0].start(), default=None)

    def paint(self, classes, start, end, scope):
        """Gives the bytes of a range the class of a scope, if there is one."""
        if scope is not None:
            classes[start:end] = [class_of_scope(scope)] * (end - start)

    def classes_of(self, line):
        """Returns the class of each byte of the next line."""
        outer = class_of_scope(self.open[-1]["name"]) if self.open else Class.BLANK
        classes, at = [outer] * len(line), 0
        while found := self.first_match(line, at):
            match, rule = found
            if rule is None:
                self.open.pop()
            else:
                is_open = "begin" in rule
                self.paint(classes, match.start(), len(line) if is_open else match.end(), rule.get("name"))
                for group, capture in rule.get("beginCaptures" if is_open else "captures", {}).items():
                    self.paint(classes, *match.span(int(group)), capture["name"])
                self.open += [rule] * is_open
            at = match.end()
        return classes


def classes_by_textmate(lines):
    """Returns the class of each byte of each line, by the TextMate grammar."""
    found = json.loads((VSCODE / "dbp.tmLanguage.json").read_text())
    grammar = Grammar({"patterns": found["patterns"]}, found["repository"], [])
    return [grammar.classes_of(line) for line in lines]


# What differs.


def first_difference(lines, found, wanted):
    """Returns the first place at which the classes differ, blanks within comments aside."""
    if len(found) != len(lines):
        return f"{len(found)} lines are found, of {len(lines)}"
    for number, (line, own, other) in enumerate(zip(lines, found, wanted), 1):
        for column, (byte, one, another) in enumerate(zip(line, own, other), 1):
            is_seen = byte not in " \t\r" or Class.COMMENT in (one, another)
            if one is not another and is_seen:
                return f"line {number}, column {column}: {one.value}, and {another.value} is wanted: {line}"
    return None


def fault_of_vim():
    """Returns what differs between Vim and the language."""
    if skipped := lack_of(["vim"]):
        return skipped
    answer = answer_of_vim()
    for document, groups in zip(documents(), answer["groups"]):
        lines = lines_of(document)
        found = [[VIM_CLASSES[name] for name in line] for line in groups]
        fault = first_difference(lines, found, classes_by_language(lines))
        if fault:
            return f"{document.relative_to(TOP)}: {fault}"
    wanted = [[file, line, column, severity[0], text] for file, line, column, severity, text in PROBLEMS]
    if answer["problems"] != wanted:
        return f"the problems are {answer['problems']}"
    return None if answer["makeprg"] == f"'{TOP}/tools/check' %:S" else f"makeprg is {answer['makeprg']}"


def fault_of_textmate(document):
    """Returns what differs between the TextMate grammar and the language."""
    lines = lines_of(document)
    return first_difference(lines, classes_by_textmate(lines), classes_by_language(lines))


def fault_of_extension():
    """Returns what differs between the extension of VS Code and what it refers to."""
    contributes = json.loads((VSCODE / "package.json").read_text())["contributes"]
    language, grammar, matcher = (contributes[it][0] for it in ("languages", "grammars", "problemMatchers"))
    scope = json.loads((VSCODE / grammar["path"]).read_text())["scopeName"]
    settings = json.loads((VSCODE / language["configuration"]).read_text())
    if (language["id"], scope) != (grammar["language"], grammar["scopeName"]) or "comments" not in settings:
        return "its language, its grammar and its settings don't fit"
    pattern = matcher["pattern"]
    groups = [pattern[part] for part in ("file", "line", "column", "severity", "message")]
    found = [re.search(pattern["regexp"], line).group(*groups) for line in SAID]
    wanted = [(file, str(line), str(column), severity, text) for file, line, column, severity, text in PROBLEMS]
    return None if found == wanted else f"the problems are {found}"


def task_of_docs():
    """Returns the task of docs/TOOLS.md with the extension's words that the page names for its command and its matcher."""
    page = (TOP / "docs" / "TOOLS.md").read_text()
    words = {"problemMatcher": "$dbp", "command": "${config:dbp.check}"}
    missing = [word for word in words.values() if f'`"{word}"`' not in page]
    blocks = re.findall(r"```json\n(.*?)```", page, re.DOTALL)
    tasks = [task for block in blocks for task in json.loads(block).get("tasks", ())]
    if missing or len(tasks) != 1:
        raise ValueError(f"docs/TOOLS.md has {len(tasks)} tasks, and doesn't name {missing}")
    return {**tasks[0], **words}


def fault_of_task(program):
    """Returns what differs if that task checks a document, the repository and the document in folders with spaces."""
    contributes = json.loads((VSCODE / "package.json").read_text())["contributes"]
    if contributes["configuration"]["properties"]["dbp.check"]["type"] != "string":
        return "the setting dbp.check isn't a text"
    task = task_of_docs()
    with tempfile.TemporaryDirectory() as room:
        repository, document = Path(room) / "a b" / "the repository", Path(room) / "c d" / "a document.dbp"
        repository.parent.mkdir()
        document.parent.mkdir()
        repository.symlink_to(TOP)
        document.write_text("dbp 1\npolicy fp\nuntil 5\ntask a every 5 prio 1 cost 1\n  out y = 0 then z\ndone\n")
        values = {"${config:dbp.check}": repository / "tools" / "check", "${file}": document}
        words = [str(values[word]) for word in (task["command"], *task["args"])]
        ran = subprocess.run([*words, "--program", program], cwd=room, capture_output=True, text=True)
        matcher = re.compile(contributes["problemMatchers"][0]["pattern"]["regexp"])
        found = [it.groups()[:4] for it in map(matcher.match, ran.stderr.splitlines()) if it]
        is_process = task["type"] == "process"
        return None if is_process and found == [(str(document), "5", "18", "error")] else f"it finds {found}"


def fault_of_words():
    """Returns the words of the language that the document of all tokens lacks."""
    missing = {*RESERVED, *STEPS} - {*TOKENS.read_text().split()}
    return f"{TOKENS.name} lacks {sorted(missing)}" if missing or len(STEPS) < 12 else None


def trials(program):
    """Yields the trials of the editors, each a name and a call that returns what differs, or None."""
    yield "every word", fault_of_words
    yield "vim", fault_of_vim
    yield "vscode", fault_of_extension
    yield "vscode's task", partial(fault_of_task, program)
    for document in documents():
        yield f"textmate: {document.relative_to(TOP)}", partial(fault_of_textmate, document)
