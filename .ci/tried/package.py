"""The packages of tools/package: unpacked, installed by dpkg and by make, each command, manual page, completion and
example works there, and removal leaves nothing. dbp-verify names what differs. The same sources make the same bytes.

What needs dpkg, fakeroot, lintian, a shell, or a program that lays out manual pages is skipped if that isn't on the machine.
"""

import os
import re
import shutil
import subprocess
import sys
import tempfile
import time
from functools import partial
from pathlib import Path

TOP = Path(__file__).resolve().parents[2]
sys.path.insert(0, str(TOP / ".ci"))

import installed  # noqa: E402
from awaited import SECONDS  # noqa: E402
from comparing import if_there, must  # noqa: E402
from installed import NOBODY, Installed, discard, executed, package, package_file  # noqa: E402
from stand_ins import write_program  # noqa: E402

RELEASE = re.search(r"(?m)^## (\S+), (\S+)$", (TOP / "CHANGELOG.md").read_text())
NAMES = [f"dbp_{RELEASE[1]}_amd64.deb", f"dbp-{RELEASE[1]}.tar.gz", f"dbp-{RELEASE[1]}.vsix"]
PASSED = "library a: proved\n" * 30 + "\nverdict: all is proved\n2345 passed, 0 failed"
OTHER_WORLD = {"TZ": "Asia/Tokyo", "PYTHONHASHSEED": "7", "LC_ALL": "C", "SOURCE_DATE_EPOCH": "1", "HOME": "/none"}

# What is done to an installation, and the line that dbp-verify must say.
CHANGES = {
    "a tool that is changed": ("printf '\\n' >> lib/dbp/tools/check", "changed: lib/dbp/tools/check"),
    "a program that is changed": ("cp /bin/true lib/dbp/dbp", "changed: lib/dbp/dbp"),
    "a file that isn't there": ("rm share/man/man1/dbp-waves.1.gz", "missing: share/man/man1/dbp-waves.1.gz"),
    "a folder that isn't there": ("rm -r lib/dbp/editors/vim/ftdetect", "missing: lib/dbp/editors/vim/ftdetect/dbp.vim"),
    "a module that hides another": ("touch lib/dbp/tools/json.py", "not of the package: lib/dbp/tools/json.py"),
    "a link that leads elsewhere": ("ln -sf /bin/true bin/dbp", "changed: bin/dbp"),
    "a file in place of a link": ("rm bin/dbp && cp lib/dbp/dbp bin/dbp", "changed: bin/dbp"),
    "a link to a folder": ("ln -s / lib/dbp/tools/more", "not of the package: lib/dbp/tools/more"),
}

# What is done to the sources of a repository, and the line that dbp-verify must say.
SOURCES = {
    "a definition that is changed": ("sed -i '$G' crates/dbp_plan/specs/Lib.antt", "changed: crates/dbp_plan"),
    "a source that is added": ("touch crates/rank_order/src/more.rt", "changed: crates/rank_order"),
    "a source that is renamed": ("cd crates/dbp && mv src/main.rt src/more.rt", "changed: crates/dbp"),
    "a crate that isn't there": ("rm -r crates/slot_need", "missing: crates/slot_need"),
    "a crate that is added": ("cp -r crates/dbp crates/more", "not proved: crates/more"),
    "another list of crates": ("sed -i '$G' crates.txt", "changed: crates.txt"),
}

ZSH = """
zmodload zsh/zpty
zpty z zsh -f -i
zpty -w z "PROMPT=; fpath=(${(q)1} $fpath); autoload -Uz compinit; compinit -u -D; bindkey '^I' list-choices; print RE''ADY"
zpty -r z out '*READY*'
zpty -w -n z "$2"$'\\t'
zpty -r z out "*$3*" && print -r found
zpty -d z
"""


def room():
    """Makes a folder for a trial, which others may enter, in a path with spaces."""
    place = tempfile.mkdtemp(prefix="dbp installed ")
    os.chmod(place, 0o755)
    return Path(place)


class Archive:
    """The unpacked archive in a path with spaces: for reading alone, and used by an ordinary user."""

    def __init__(self, program):
        self.program = program
        self.place = None

    def __enter__(self):
        self.place = room()
        executed(["tar", "-xzf", package_file(self.program, ".tar.gz"), "-C", self.place])
        prefix = self.place / f"dbp-{RELEASE[1]}"
        executed(["chmod", "-R", "a-w", prefix])
        return Installed(prefix, NOBODY if os.geteuid() == 0 else None)

    def __exit__(self, *_):
        discard(self.place)


class Unpacked:
    """The package of Debian, unpacked by dpkg-deb into an empty root."""

    def __init__(self, program):
        self.program = program
        self.place = None

    def __enter__(self):
        self.place = room()
        executed(["dpkg-deb", "-x", package_file(self.program, ".deb"), self.place])
        return Installed(self.place / "usr")

    def __exit__(self, *_):
        discard(self.place)


class ByMake:
    """What `make install` puts below a folder."""

    def __init__(self, program):
        self.program = program
        self.place = None

    def __enter__(self):
        self.place = room()
        made_by("install", self.place / "its prefix", self.program)
        return Installed(self.place / "its prefix")

    def __exit__(self, *_):
        discard(self.place)


def made_by(target, prefix, program, top=TOP):
    """Calls make at the top of the repository."""
    words = ["make", "-s", "-C", top, target, f"PREFIX={prefix}", f"PACKAGE_OPTIONS=--program '{program}'"]
    return executed(words)


def files_below(folder):
    """Returns the files and links below a folder, by their paths."""
    return {it.relative_to(folder).as_posix() for it in folder.rglob("*") if it.is_symlink() or not it.is_dir()}


def within(kind, program, compare, *given):
    """Makes a comparison in an installation."""
    with kind(program) as it:
        compare(*given, it)


def compare_bytes(program):
    """Compares the packages with those that are made a second later, by a process to which the world looks otherwise."""
    place = room()
    try:
        time.sleep(1.1)
        words = [sys.executable, "-B", TOP / "tools/package", "--program", program, "-o", place / "more"]
        executed(["sh", "-c", 'umask 077; exec "$@"', "sh", *words], cwd=place, env={**os.environ, **OTHER_WORLD})
        must(sorted(os.listdir(place / "more")) == sorted(NAMES), f"the files are {os.listdir(place / 'more')}")
        for name in NAMES:
            is_same = (place / "more" / name).read_bytes() == (package_file(program, name)).read_bytes()
            must(is_same, f"{name} has other bytes at the second time")
    finally:
        discard(place)


def compare_fields(program):
    """Compares what dpkg says of the package."""
    file = package_file(program, ".deb")
    fields = ("Version", "Architecture", "Depends")
    found = {name: executed(["dpkg-deb", "-f", file, name])[0].decode().strip() for name in fields}
    must(found["Version"] == RELEASE[1] and found["Architecture"] == "amd64", f"it has {found}")
    must(re.fullmatch(r"libc6 \(>= 2\.\d+\), python3 \(>= 3\.9\)", found["Depends"]), f"it has {found}")
    listed = executed(["dpkg-deb", "-c", file])[0].decode().splitlines()
    odd = [line for line in listed if not line.split()[0] in ("drwxr-xr-x", "-rw-r--r--", "-rwxr-xr-x", "lrwxrwxrwx")]
    others = [line for line in listed if " root/root " not in line or f" {RELEASE[2]} " not in line]
    must(not odd and not others, f"rights, owners or dates differ: {(odd or others)[0] if odd or others else None}")


def compare_lint(program):
    """Compares what lintian says of the package: no error."""
    words = ["lintian", "--allow-root", "--fail-on", "none", package_file(program, ".deb")]
    said = executed(words)[0].decode()
    errors = [line for line in said.splitlines() if line.startswith("E: ")]
    must(not errors, "; ".join(errors))


def compare_dpkg(program):
    """Compares what dpkg installs in an empty root, and what is left when it has removed it."""
    place = room()
    try:
        data = place / "var/lib/dpkg"
        for name in ("info", "updates", "triggers"):
            (data / name).mkdir(parents=True)
        (data / "status").touch()
        words = ["fakeroot", "dpkg", f"--root={place}", "--force-depends", "--force-bad-path", "--log=/dev/null"]
        executed([*words, "-i", package_file(program, ".deb")])
        it = Installed(place / "usr")
        installed.compare_commands(it)
        installed.compare_calls(program, it)
        installed.compare_verified(it)
        executed([*words, "-V", "dbp"])
        executed([*words, "-P", "dbp"])
        left = [path.relative_to(place).as_posix() for path in place.rglob("*")]
        left = [it for it in left if not "var/lib/dpkg/".startswith(f"{it}/") and not it.startswith("var/lib/dpkg/")]
        must(not left, f"{left} are left")
    finally:
        discard(place)


def compare_removed(program):
    """Compares what `make uninstall` leaves: what was there before, and nothing of an earlier version."""
    place = room()
    try:
        prefix = place / "its prefix"
        for name in ("bin/other", "lib/dbp/own.txt"):
            (prefix / name).parent.mkdir(parents=True, exist_ok=True)
            (prefix / name).touch()
        made_by("install", prefix, program)
        record, old = prefix / "lib/dbp/proved.txt", "lib/dbp/tools/old.py"
        (prefix / old).touch()
        record.write_text(record.read_text() + f"{'0' * 64}  {old}\n")
        made_by("install", prefix, program)
        must(not (prefix / old).exists(), "a file of the earlier version is left")
        made_by("uninstall", prefix, program)
        left = files_below(prefix)
        must(left == {"bin/other", "lib/dbp/own.txt"}, f"{sorted(left)} are left")
        (prefix / "lib/dbp/own.txt").unlink()
        made_by("install", prefix, program)
        made_by("uninstall", prefix, program)
        left = [it for it in prefix.rglob("*") if it.name == "dbp"]
        must(not left, f"{left} are left")
        said = package(None, "--uninstall", prefix, status=4)[1]
        must("proved.txt: it isn't there" in said, f"it said {said!r}")
    finally:
        discard(place)


def compare_change(program, change, line):
    """Compares what dbp-verify says after a change of an installation."""
    with Archive(program) as it:
        executed(["chmod", "-R", "u+w", it.prefix])
        executed(["sh", "-c", change], cwd=it.prefix)
        out, said = it.run("dbp-verify", status=1)
        must(said.splitlines() == [line], f"it said {said!r}, and {line!r} is wanted")
        must(f"files in {it.prefix}: 1 differ\n" in out.decode() and "to prove it anew" in out.decode(), f"it printed {out!r}")


def copied_repository(place):
    """Returns a copy of what a package is made of, in a path with spaces."""
    top = place / "the repository"
    kept = shutil.ignore_patterns("out", "__pycache__")
    for name in ("crates", "docs", "editors", "examples", "tools"):
        shutil.copytree(TOP / name, top / name, ignore=kept)
    for name in ("README.md", "CHANGELOG.md", "CONTRIBUTING.md", "crates.txt", "HANDLES", "Makefile"):
        shutil.copy2(TOP / name, top / name)
    return top


def compare_sources(program):
    """Compares what dbp-verify says of a repository: with the same sources, with changed ones, and of its program."""
    place = room()
    try:
        top = copied_repository(place)
        with Archive(program) as it:
            count = len([it for it in (TOP / "crates").iterdir() if (it / "src").is_dir()]) + 2
            line = f"sources in {top}: all {count} are as recorded"
            (top / "crates/dbp/out").mkdir()
            shutil.copy2(program, top / "crates/dbp/out/dbp")
            for words, how in (([top], {}), ([], {"cwd": top})):
                said = it.run("dbp-verify", *words, **how)[0].decode().splitlines()
                must(line in said and f"program in {top}: the recorded one" in said, f"it said {said}, and {line!r} is wanted")
            own = [sys.executable, "-B", top / "tools/verify", "--proved", it.prefix / "lib/dbp/proved.txt"]
            must(line in executed(own)[0].decode().splitlines(), "the tool of the repository says otherwise")
            shutil.copy2("/bin/true", top / "crates/dbp/out/dbp")
            must("another build" in it.run("dbp-verify", top)[0].decode(), "another program is taken for the recorded one")
            for name, (change, line) in SOURCES.items():
                other = place / name
                executed(["cp", "-al", top, other])  # by links, which `sed -i` replaces
                executed(["sh", "-c", change], cwd=other)
                said = it.run("dbp-verify", other, status=1)[1]
                must(said.splitlines() == [line], f"{name}: it said {said!r}, and {line!r} is wanted")
    finally:
        discard(place)


def compare_records(program):
    """Compares how dbp-verify ends with a record of another kind, and where there is nothing to compare."""
    place = room()
    try:
        (place / "text").write_text("dbp\n")
        (place / "bytes").write_bytes(b"\xff\xfe")
        with Archive(program) as it:
            record = (it.prefix / "lib/dbp/proved.txt").read_text()
            (place / "part").write_text(record[: record.index("[files]")])
            (place / "row").write_text(record.replace("  bin/dbp\n", " bin/dbp\n"))
            for name in ("text", "bytes", "part", "row", "none", "."):
                said = it.run("dbp-verify", "--proved", place / name, status=4)[1]
                must(said.startswith(f"dbp-verify: {place / name}: ") and said.count("\n") == 1, f"{name}: it said {said!r}")
            it.run("dbp-verify", place, status=2)
            executed(["sh", "-c", '"$0" > /dev/full', it.prefix / "bin/dbp-verify"], 5)
        executed([sys.executable, "-B", TOP / "tools" / "verify"], 2)
    finally:
        discard(place)


def compare_gate(program):
    """Compares what the record has of the gate: the lines that close its output, if it has passed."""
    place = room()
    try:
        (place / "failed").write_text(PASSED.replace("0 failed", "1 failed"))
        (place / "empty").write_text("")
        for number, more in enumerate(("", ", 6 skipped")):
            (place / "passed").write_text(f"{PASSED}{more}\n")
            package(program, "--install", place / f"{number}", "--gate", place / "passed")
            said = Installed(place / f"{number}").run("dbp-verify")[0].decode()
            wanted = "gate:\n" + "  library a: proved\n" * 10 + f"  verdict: all is proved\n  2345 passed, 0 failed{more}\n"
            must(wanted in said, f"it says {said!r}")
        for name, status in (("failed", 1), ("empty", 1), ("none", 4)):
            package(program, "-o", place / "made", "--gate", place / name, status=status)
            must(not (place / "made").exists(), f"{name}: packages are made")
        with Archive(program) as it:
            must("  no output of the gate was given\n" in it.run("dbp-verify")[0].decode(), "nothing says that none was given")
    finally:
        discard(place)


def compare_record(program):
    """Compares the record with the repository: the version, the commit, the kit, and both checksums of the program."""
    head = executed(["git", "-C", TOP, "rev-parse", "HEAD"])[0].decode().strip()
    kit = re.search(r"(?m)^Proved with `(.*)`\.$", (TOP / "README.md").read_text())[1]
    with Archive(program) as it:
        record = (it.prefix / "lib/dbp/proved.txt").read_text()
        sums = [executed(["sha256sum", file])[0].decode().split()[0] for file in (program, it.prefix / "lib/dbp/dbp")]
        said = executed(["file", "-b", it.prefix / "lib/dbp/dbp"])[0].decode() if shutil.which("file") else "stripped"
    lines = [f"version {RELEASE[1]}", f"date {RELEASE[2]}", f"kit {kit}", f"{sums[0]}  built", f"{sums[1]}  installed"]
    missing = [line for line in lines if line not in record.splitlines()]
    must(not missing and f"\ncommit {head}" in record, f"it lacks {missing or head}")
    must(sums[0] != sums[1] and "not stripped" not in said, "the program isn't stripped")
    crate = "find . -type f -not -path './out/*' -printf '%P\\n' | LC_ALL=C sort | xargs -d '\\n' sha256sum | sha256sum"
    wanted = executed(["sh", "-c", crate], cwd=TOP / "crates/dbp_plan")[0].decode().split()[0]
    must(f"{wanted}  crates/dbp_plan" in record.splitlines(), f"the checksum of crates/dbp_plan is {wanted}")


def compare_logic(program):
    """Compares what comes of a program that names another logic than README.md: no package. One built unproved names none."""
    if b"rattle logic=" not in Path(program).read_bytes():
        return
    place = room()
    try:
        other = "LC_ALL=C sed 's/rattle logic=[0-9a-f]*/rattle logic=0123456789abcdef/' \"$0\" > \"$1\"; chmod 755 \"$1\""
        executed(["sh", "-c", other, program, place / "other"])
        said = package(place / "other", "-o", place / "made", status=70)[1]
        must("it names the logic 0123456789abcdef" in said and not (place / "made").exists(), f"it says {said!r}")
    finally:
        discard(place)


def compare_launcher(program):
    """Compares which program is packed without `--program`: the one that the launcher of the repository proves, if it can."""
    place = room()
    try:
        top = copied_repository(place)
        built = "mkdir -p crates/dbp/out && cp \"$PROGRAM\" crates/dbp/out/dbp; exit 2"
        write_program(top / "dbp", f'#!/bin/sh\ncd "$(dirname "$0")" || exit 70\n{built}\n')
        how = {"top": top, "env": {**os.environ, "PROGRAM": str(program)}}
        package(None, "--install", place / "it", **how)
        said = Installed(place / "it").run("dbp-verify", top)[0].decode()
        must("commit none: " in said and f"program in {top}: the recorded one" in said, f"it says {said!r}")
        write_program(top / "dbp", "#!/bin/sh\necho 'dbp: it is not proved' >&2\nexit 70\n")
        said = package(None, "-o", place / "made", status=70, **how)[1]
        must("it is not proved" in said and not (place / "made").exists(), f"it said {said!r}")
    finally:
        discard(place)


def compare_ends(program):
    """Compares how tools/package ends if something is wrong, and that it leaves no half file."""
    place = room()
    try:
        write_program(place / "interrupting", f"#!/bin/sh\nkill -INT $PPID\nexec '{program}' \"$@\"\n")
        for named, words, status in (
            ("/none", ["-o", place / "made"], 70),
            ("/bin/true", ["-o", place / "made"], 70),
            ("/etc/passwd", ["-o", place / "made"], 70),
            (place / "interrupting", ["-o", place / "made"], 130),
            (program, ["-o", "/dev/null/none"], 5),
            (program, ["--install", "/dev/null/none"], 5),
            (program, [], 2),
            (program, ["-o", place / "made", "--install", place / "made"], 2),
        ):
            package(named, *words, status=status)
            must(not (place / "made").exists(), f"{named} {words}: something is made")
    finally:
        discard(place)


def compare_bash(it):
    """Compares what bash completes: each option of each tool, values that are to be chosen, and the commands of dbp."""
    for file in sorted((it.prefix / "share/bash-completion/completions").iterdir()):
        name = file.name
        call = f'. "$0"; COMP_WORDS=({name} "$1" "$2"); COMP_CWORD=$3; _{name.replace("-", "_")} {name} "$4" "$5"'
        call += "; echo ${COMPREPLY[*]}"

        def completed(*words):
            return executed(["bash", "-c", call, file, *words])[0].decode().split()

        if name == "dbp":
            usage = it.run("dbp", status=2)[1]
            wanted = [*dict.fromkeys(line.split()[0] for line in usage.splitlines()[1:])]
            must(completed("", "", 1, "", "dbp") == wanted, "the commands of dbp differ")
            must(completed("sim", "", 2, "", "sim") == ["--record"], "`sim --record` isn't completed")
        else:
            listed = re.findall(r"(?m)^  (-[\w-]+)(?:, (--[\w-]+))?", it.run(name, "--help")[0].decode())
            options = {option for names in listed for option in names if option}
            must({*completed("-", "", 1, "-", name)} == options, f"the options of {name} differ: {sorted(options)}")
    emit = it.prefix / "share/bash-completion/completions/dbp-emit_c"
    said = executed(["bash", "-c", '. "$0"; _dbp_emit_c dbp-emit_c p --target; echo ${COMPREPLY[*]}', emit])[0].decode()
    must(said == "posix\n", f"after `--target p` it completes {said!r}")


def compare_zsh(it):
    """Compares what zsh completes."""
    folder = next((it.prefix / "share/zsh").iterdir())
    for file in sorted(folder.iterdir()):
        executed(["zsh", "-n", file])
    for typed, wanted in (("dbp-emit_c --target ", "core*posix*trace"), ("dbp-emit_c --tic", "posix: the length"),
                          ("dbp-check --no-", "no-warnings"),
                          ("dbp ", "mean"), ("dbp-waves --com", "command"), ("dbp sim --", "--record")):
        found = executed(["timeout", str(SECONDS // 2), "zsh", "-f", "-c", ZSH, "zsh", folder, typed, wanted])[0]
        must(found == b"found\n", f"`{typed}` isn't completed to {wanted}")


def compare_fish(it):
    """Compares what fish completes."""
    folder = it.prefix / "share/fish/vendor_completions.d"
    for typed, wanted in (("dbp-emit_c --target ", "core posix trace"), ("dbp-check --no-", "--no-warnings"),
                          ("dbp me", "mean"), ("dbp-waves --com", "--command"), ("dbp sim --", "--record")):
        file = folder / f"{typed.split()[0]}.fish"
        with tempfile.TemporaryDirectory() as home:
            how = {"env": {"PATH": installed.SYSTEM, "HOME": home}}
            words = ["fish", "--no-config", "-c", "source $argv[1]; complete -C $argv[2]", file, typed]
            said = executed(words, **how)[0].decode()
        found = [line.split("\t")[0] for line in said.splitlines()]
        must(found == wanted.split(), f"`{typed}` is completed to {found}, and {wanted} is wanted")


def compare_vim(it):
    """Compares which checker Vim takes: the installed one."""
    editors = it.prefix / "lib/dbp/editors/vim"
    with tempfile.TemporaryDirectory() as place:
        answer = Path(place) / "answer"
        path = str(editors).replace(" ", "\\ ")
        words = ["vim", "-es", "-N", "-u", "NONE", "-i", "NONE", "-n", "--cmd", f"set rtp^={path}"]
        subprocess.run([*words, "-c", "compiler dbp", "-c", f"call writefile([&makeprg], '{answer}')", "-c", "qall!"],
                       stdin=subprocess.DEVNULL, capture_output=True, timeout=SECONDS, check=False)
        found = answer.read_text() if answer.exists() else ""
    must(found == f"'{it.prefix}/lib/dbp/tools/check' %:S\n", f"it is {found!r}")


def in_all(program):
    """Yields the trials of each kind of installation."""
    kinds = (("the archive, read-only in a path with spaces", ["tar"], Archive),
             ("the unpacked package", ["dpkg-deb"], Unpacked),
             ("what make installs", ["make"], ByMake))
    for where, needed, kind in kinds:
        for what, programs, compare, *given in (
            ("commands", [], installed.compare_commands),
            ("calls", [], installed.compare_calls, program),
            ("the example of C", ["cc", "make"], installed.compare_deployed),
            ("dbp-verify", [], installed.compare_verified),
            ("the studio", [], installed.compare_served),
            ("pages of the web", [], installed.compare_pages),
            ("mandoc", ["mandoc"], installed.compare_manual, ["mandoc", "-T", "lint", "-W", "warning"]),
            ("man", ["man"], installed.compare_manual, ["man", "-l"]),
            ("bash", ["bash"], compare_bash),
            ("zsh", ["zsh"], compare_zsh),
            ("fish", ["fish"], compare_fish),
            ("vim", ["vim"], compare_vim),
        ):
            yield f"{where}: {what}", [*needed, *programs], within, kind, program, compare, *given


def trials(program):
    """Yields the trials: a name, and a call that returns what differs, or nothing."""
    for name, programs, call, *given in (
        ("the same bytes twice", [], compare_bytes, program),
        ("fields", ["dpkg-deb"], compare_fields, program),
        ("lintian", ["lintian"], compare_lint, program),
        ("dpkg in an empty root", ["dpkg", "fakeroot"], compare_dpkg, program),
        ("make uninstall", ["make"], compare_removed, program),
        *in_all(program),
        *((f"dbp-verify: {name}", ["tar"], compare_change, program, *it) for name, it in CHANGES.items()),
        ("dbp-verify: sources", ["tar"], compare_sources, program),
        ("dbp-verify: records", ["tar"], compare_records, program),
        ("the gate in the record", ["tar"], compare_gate, program),
        ("the record", ["tar", "git"], compare_record, program),
        ("another logic", [], compare_logic, program),
        ("the launcher's program", [], compare_launcher, program),
        ("ends", [], compare_ends, program),
    ):
        yield name, partial(if_there, ["strip", *programs], call, *given)
