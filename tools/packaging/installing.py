"""Installs the files of an installation below a folder, and removes them."""

import os
from contextlib import suppress
from pathlib import Path

from command_line import replace_all
from ending import Ended, Status, reason_of
from packaging.archives import folders_of
from packaging.files import Link
from packaging.tree import DOC, HOME
from verifying.record import FILE, Unreadable, read_record


def record_below(prefix):
    """Returns the paths that the record of an installation lists, and its own; none if there is no record."""
    file = prefix / FILE
    try:
        return [*read_record(file.read_text(encoding="utf-8")).files, FILE]
    except (FileNotFoundError, NotADirectoryError):
        return []
    except (OSError, UnicodeError, Unreadable) as error:
        raise Ended(Status.READ_FAILED, f"{file}: {error}") from error


def put_link(path, target):
    """Puts a link into the place of what is there."""
    with suppress(FileNotFoundError):
        path.unlink()
    path.symlink_to(target)


def install(tree, prefix):
    """Installs files below a folder. Those of an earlier installation that aren't among them are removed."""
    prefix = Path(os.path.abspath(prefix))
    try:
        old = record_below(prefix)
        for folder in folders_of(tree):
            (prefix / folder).mkdir(parents=True, exist_ok=True)
        files = {path: it for path, it in tree.items() if not isinstance(it, Link)}
        replace_all({str(prefix / path): [it.content] for path, it in files.items()})
        for path, it in files.items():
            (prefix / path).chmod(0o755 if it.is_run else 0o644)
        for path, it in tree.items():
            if isinstance(it, Link):
                put_link(prefix / path, it.target)
        remove_files(prefix, [it for it in old if it not in tree])
    except OSError as error:
        raise Ended(Status.WRITE_FAILED, f"{error.filename or prefix}: {reason_of(error)}") from error


def remove_files(prefix, paths):
    """Removes files, and those of dbp's own folders that are empty then."""
    for path in paths:
        with suppress(FileNotFoundError):
            (prefix / path).unlink()
    own = [it for it in folders_of(paths) if it.startswith((HOME, DOC))]
    for folder in reversed(own):
        with suppress(OSError):
            (prefix / folder).rmdir()


def uninstall(prefix):
    """Removes the files of an installation, as its record lists them."""
    prefix = Path(os.path.abspath(prefix))
    paths = record_below(prefix)
    if not paths:
        raise Ended(Status.READ_FAILED, f"{prefix / FILE}: it isn't there, so nothing says what is to be removed")
    try:
        remove_files(prefix, paths)
    except OSError as error:
        raise Ended(Status.WRITE_FAILED, f"{error.filename or prefix}: {reason_of(error)}") from error
