"""The command `verify`."""

import os
from argparse import RawDescriptionHelpFormatter
from functools import partial
from pathlib import Path

from command_line import Parser, write_text
from ending import Ended, Status, reason_of, say, status_of
from verifying.record import BUILT, FILE, Unreadable, checksums_of_sources, found_at, read_record

ABOUT = """Compares the files of an installed dbp with the record of what was proved, and the sources of a repository too. It
says what differs, and what to run to prove it anew. The record is a file of the package, so who can change the program can
change it: for more than accidents, give the record of a package that you trust.

exit status: 0 all is as recorded; 1 something differs; 2 wrong words, or nothing to compare; 4 a file can't be read;
5 the answer can't be written; 130 interrupted."""

TOP = Path(__file__).resolve().parents[2]
PREFIX = TOP.parent.parent
OWN = ("lib/dbp", "share/doc/dbp")  # folders in which nothing else belongs
PROGRAM = "crates/dbp/out/dbp"
TO_PROVE = """to prove it anew: with the kit of that line, and its `rt` on the path, in a repository at that commit
  ./dbp      proves the crates of the program in half an hour, and builds it
  .ci/run    proves all crates, tries wrong bodies, and runs tests and cases, in one and a half hours
"""


def options_of(words):
    """Returns the options that the words give."""
    parser = Parser(prog="verify", description=ABOUT, formatter_class=RawDescriptionHelpFormatter)
    about_repository = "a repository whose sources are compared (the current folder, if it is one)"
    parser.add_argument("repository", metavar="REPOSITORY", nargs="?", help=about_repository)
    about_record = "the record of another package (that of the installed one)"
    parser.add_argument("--proved", metavar="FILE", help=about_record)
    return parser.parse_args(words)


def is_repository(folder):
    """Returns whether a folder is a repository of dbp."""
    return (folder / "crates.txt").is_file() and (folder / "crates" / "dbp" / "src").is_dir()


def is_installed():
    """Returns whether this tool is an installed one."""
    return (PREFIX / FILE).is_file() and TOP == PREFIX / "lib" / "dbp"


def repository_of(options):
    """Returns the repository to compare, if there is one."""
    if options.repository is not None:
        folder = Path(options.repository)
        if not is_repository(folder):
            raise Ended(Status.WRONG_WORDS, f"{folder}: it is no repository of dbp")
        return folder
    return next((it for it in (TOP, Path.cwd()) if is_repository(it)), None)


def record_at(file):
    """Returns the record that a file has."""
    try:
        return read_record(Path(file).read_text(encoding="utf-8"))
    except OSError as error:
        raise Ended(Status.READ_FAILED, f"{file}: {reason_of(error)}") from error
    except (UnicodeError, Unreadable) as error:
        raise Ended(Status.READ_FAILED, f"{file}: {error}") from error


def file_fault(path, wanted):
    """Returns how an installed file differs from what is wanted, or nothing."""
    try:
        return None if found_at(PREFIX / path) == wanted else f"changed: {path}"
    except (FileNotFoundError, NotADirectoryError):
        return f"missing: {path}"


def others(files):
    """Yields the files in the folders of dbp that the record doesn't list."""
    for own in OWN:
        for folder, folders, names in os.walk(PREFIX / own):
            links = [it for it in folders if os.path.islink(os.path.join(folder, it))]
            for name in (*names, *links):
                path = Path(folder, name).relative_to(PREFIX).as_posix()
                if path != FILE and path not in files:
                    yield f"not of the package: {path}"


def faults_of_files(record):
    """Returns how the installed files differ from the record."""
    found = [file_fault(path, wanted) for path, wanted in record.files.items()]
    return [it for it in found if it] + sorted(others(record.files))


def faults_of_sources(record, top):
    """Returns how the sources of a repository differ from the record."""
    found = checksums_of_sources(top)
    missing = [f"missing: {name}" for name in record.sources if name not in found]
    added = [f"not proved: {name}" for name in found if name not in record.sources]
    changed = [f"changed: {name}" for name, it in found.items() if record.sources.get(name, it) != it]
    return missing + added + changed


def answer_of(what, count, faults):
    """Returns the line that says whether something is as recorded, after what differs went to standard error."""
    for fault in faults:
        say(fault)
    return f"{what}: {f'{len(faults)} differ' if faults else f'all {count} are as recorded'}\n"


def answer_of_build(record, top):
    """Returns what is said of the program that a repository has built, if it has one."""
    file = top / PROGRAM
    if not file.is_file():
        return ""
    return f"program in {top}: {'the recorded one' if found_at(file) == record.program[BUILT] else 'another build'}\n"


def verify(words):
    """Compares what there is with the record, and returns the exit status."""
    options = options_of(words)
    top = repository_of(options)
    if options.proved is None and not is_installed():
        raise Ended(Status.WRONG_WORDS, "this tool isn't installed: `--proved` names the record of a package, its proved.txt")
    record = record_at(options.proved or PREFIX / FILE)
    gate = "\n".join(f"  {line}" for line in record.gate)
    answers = [f"dbp {record.version} of {record.date}\ncommit {record.commit}\nkit {record.kit}\ngate:\n{gate}\n"]
    faults = []
    try:
        if is_installed():
            faults += faults_of_files(record)
            answers.append(answer_of(f"files in {PREFIX}", len(record.files), faults))
        if top:
            of_sources = faults_of_sources(record, top)
            answers.append(answer_of(f"sources in {top}", len(record.sources), of_sources) + answer_of_build(record, top))
            faults += of_sources
    except OSError as error:
        raise Ended(Status.READ_FAILED, f"{error.filename}: {reason_of(error)}") from error
    write_text([*answers, TO_PROVE])
    return Status.REFUSED if faults else Status.DONE


def main(words=None):
    """Compares what the words name, and returns the exit status."""
    return status_of("verify", partial(verify, words))
