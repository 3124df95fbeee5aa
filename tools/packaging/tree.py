"""The files of an installation, by their paths below the folder in which dbp is installed.

lib/dbp is laid out as a repository: the program in place of the launcher, tools/, editors/ and examples/. So the tools find
the program there as in a repository. bin/ has links to it.
"""

import os
import stat
import subprocess
import tempfile
from pathlib import Path

from ending import Status, reason_of
from packaging import completions
from packaging.calls import TOOLS, call_of, words_of_program
from packaging.facts import TOP
from packaging.files import File, Link, compressed
from packaging.manual import page_of
from packaging.web import Pages
from program import BUILT, LAUNCHER, CannotRun, logic_in, run_program
from verifying.record import BUILT as AS_BUILT
from verifying.record import FILE, INSTALLED, LINK, Record, checksum, checksums_of_sources, text_of

HOME, DOC = "lib/dbp", "share/doc/dbp"
MODULES = ("checking", "emitting", "pictures", "reports", "responses", "serving", "studios", "testing", "tracing",
           "verifying", "waveforms")
SCRIPTS = ("canonical.py", "command_line.py", "ending.py", "layout.py", "policies.py", "program.py")
FOLDERS = ("editors", "examples")
PAGES = ("README.md", "CHANGELOG.md", "CONTRIBUTING.md")
LEFT_OUT = {"__pycache__", "out"}
ZSH = "share/zsh/site-functions"
COPYRIGHT = """dbp, a compiler and runtime for synchronous multi-rate block diagrams
Copyright 2026 its authors

No licence is given yet: ask before you use or copy this.
"""


def file_at(path):
    """Returns a file of the repository."""
    return File(path.read_bytes(), bool(path.stat().st_mode & stat.S_IXUSR))


def files_below(folder):
    """Yields the files of a folder of the repository, with their paths from its top."""
    for path in sorted((TOP / folder).rglob("*")):
        name = path.relative_to(TOP)
        if path.is_file() and not LEFT_OUT & {*name.parts}:
            yield name.as_posix(), file_at(path)


def built_program(named):
    """Returns the path of the program: the one that is named, or that of the repository, proved if it isn't yet."""
    if named is not None:
        return named
    if run_program(str(LAUNCHER), [], b"").status != Status.WRONG_WORDS or not BUILT.is_file():
        raise CannotRun(f"{LAUNCHER}: it doesn't build the program")
    return str(BUILT)


def stripped(content):
    """Returns a program without its symbols."""
    with tempfile.TemporaryDirectory() as room:
        file = Path(room) / "dbp"
        file.write_bytes(content)
        try:
            ran = subprocess.run(["strip", "--strip-all", file], capture_output=True, check=False)
        except OSError as error:
            raise CannotRun(f"strip: {reason_of(error)}; it is of the package binutils") from error
        if ran.returncode:
            raise CannotRun(f"strip: {ran.stderr.decode(errors='replace').strip()[-200:]}")
        return file.read_bytes()


def commands_of(program):
    """Returns the commands that a program lists; if it lists none, it isn't dbp."""
    ran = run_program(program, [], b"")
    usage = ran.stderr.decode("utf-8", "replace")
    if ran.status != Status.WRONG_WORDS or not usage.startswith("dbp: usage: "):
        raise CannotRun(f"{program}: its answer isn't one of dbp")
    return words_of_program(usage)


def tool_files():
    """Yields the files of the tools, and the links by which they are called."""
    for name in (*TOOLS, *SCRIPTS):
        yield f"{HOME}/tools/{name}", file_at(TOP / "tools" / name)
    for name in (f"tools/{it}" for it in MODULES):
        yield from ((f"{HOME}/{path}", file) for path, file in files_below(name))
    for name in TOOLS:
        yield f"bin/dbp-{name}", Link(f"../{HOME}/tools/{name}")


def manual_files(calls, facts):
    """Yields the manual pages."""
    yield "share/man/man1/dbp.1.gz", compressed((TOP / "docs" / "dbp.1").read_text(encoding="utf-8"))
    for call in calls:
        others = [it.name for it in calls if it != call]
        yield f"share/man/man1/dbp-{call.name}.1.gz", compressed(page_of(call, facts, others))


def completion_files(calls, listed):
    """Yields what completes the words of each command."""
    for it in (completions.command_of_program(listed), *map(completions.command_of_tool, calls)):
        yield f"share/bash-completion/completions/{it.name}", File(completions.bash_text(it).encode())
        yield f"{ZSH}/_{it.name}", File(completions.zsh_text(it).encode())
        yield f"share/fish/vendor_completions.d/{it.name}.fish", File(completions.fish_text(it).encode())


def doc_files():
    """Yields the docs, as text and as pages of the web."""
    found = {name: file_at(TOP / name) for name in PAGES}
    found.update((name, file) for name, file in files_below("docs") if not name.endswith(".1"))
    examples = [name for name, _ in files_below("examples")]
    folders = {parent.as_posix() for name in (*found, *examples) for parent in Path(name).parents}
    pages = Pages(frozenset((*found, *examples, *folders)))
    for name, file in found.items():
        yield f"{DOC}/{name}", File(file.content)
        if name.endswith(".md"):
            text = pages.page(name, file.content.decode("utf-8"))
            yield f"{DOC}/{name[:-2]}html", File(text.encode())
    yield f"{DOC}/examples", Link(os.path.relpath(f"{HOME}/examples", DOC))
    yield f"{DOC}/copyright", File(COPYRIGHT.encode())


def compare_logic(program, content, kit):
    """Ends the tool if a program names another logic than the kit of the record: it wasn't proved by that one."""
    logic = logic_in(content)
    if logic is not None and not logic.startswith(kit.split()[-1]):
        raise CannotRun(f"{program}: it names the logic {logic}, and README.md the {kit}")


def tree_of(program, facts):
    """Returns all files of an installation but the record, and the checksum of the program as it was built."""
    try:
        content = Path(program).read_bytes()
    except OSError as error:
        raise CannotRun(f"{program}: {reason_of(error)}") from error
    compare_logic(program, content, facts.kit)
    listed, calls = commands_of(program), [call_of(it) for it in TOOLS]
    found = {f"{HOME}/dbp": File(stripped(content), True), "bin/dbp": Link(f"../{HOME}/dbp")}
    found.update(tool_files())
    for folder in FOLDERS:
        found.update((f"{HOME}/{name}", file) for name, file in files_below(folder))
    found.update(manual_files(calls, facts))
    found.update(completion_files(calls, listed))
    found.update(doc_files())
    return found, checksum(content)


def with_record(tree, built, facts):
    """Returns the files of an installation with the record of what was proved."""
    files = {path: LINK + it.target if isinstance(it, Link) else checksum(it.content) for path, it in sorted(tree.items())}
    program = {AS_BUILT: built, INSTALLED: files[f"{HOME}/dbp"]}
    date = f"{facts.time:%Y-%m-%d}"
    record = Record(facts.version, date, facts.commit, facts.kit, facts.gate, program, checksums_of_sources(TOP), files)
    return {**tree, FILE: File(text_of(record).encode())}
