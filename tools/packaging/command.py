"""The command `package`."""

import os
from argparse import RawDescriptionHelpFormatter
from functools import partial

from command_line import Parser, replace_all, write_text
from ending import Ended, Status, reason_of, status_of
from packaging.archives import tar
from packaging.debian import ARCHITECTURE, debian_package
from packaging.facts import facts
from packaging.installing import install, uninstall
from packaging.tree import built_program, tree_of, with_record
from packaging.vsix import extension_file

ABOUT = """Makes dbp_VERSION_amd64.deb, dbp-VERSION.tar.gz, which runs from any folder, and the extension dbp-VERSION.vsix
of VS Code; or installs what is in the first two below a folder: the proved program, the tools, their manual pages and
completions, editors, docs and examples, and the record of what was proved, which dbp-verify compares. The version is the
latest of CHANGELOG.md. The same sources make the same bytes.

exit status: 0 it is done; 1 the gate that `--gate` names didn't pass; 2 wrong words; 4, 5 a file can't be read or
written; 70 the program isn't there, or can't be proved, or `strip` isn't there; 130 interrupted."""


def options_of(words):
    """Returns the options that the words give."""
    parser = Parser(prog="package", description=ABOUT, formatter_class=RawDescriptionHelpFormatter)
    made = parser.add_mutually_exclusive_group(required=True)
    made.add_argument("-o", dest="folder", metavar="FOLDER", help="make the packages in this folder")
    made.add_argument("--install", metavar="PREFIX", help="install below this folder, as /usr/local")
    made.add_argument("--uninstall", metavar="PREFIX", help="remove what was installed below this folder")
    about_gate = "the saved output of `.ci/run`, whose closing lines the record gets"
    parser.add_argument("--gate", metavar="FILE", help=about_gate)
    about_program = "the program, as it was built (that of the repository, which is proved first if it isn't)"
    parser.add_argument("--program", metavar="PROGRAM", help=about_program)
    return parser.parse_args(words)


def packages(tree, built, known):
    """Returns the packages and the extension of VS Code, by the names of their files."""
    whole = f"dbp-{known.version}"
    return {
        f"dbp_{known.version}_{ARCHITECTURE}.deb": debian_package(tree, built, known),
        f"{whole}.tar.gz": tar(with_record(tree, built, known), whole, known.time),
        f"{whole}.vsix": extension_file(known.time),
    }


def write_packages(found, folder):
    """Writes the packages into a folder, which is made if it isn't there, and prints their paths."""
    paths = {os.path.join(folder, name): [content] for name, content in found.items()}
    try:
        os.makedirs(folder, exist_ok=True)
        replace_all(paths)
    except OSError as error:
        raise Ended(Status.WRITE_FAILED, f"{error.filename or folder}: {reason_of(error)}") from error
    write_text(f"{path}\n" for path in paths)


def make(words):
    """Makes what the words ask for."""
    options = options_of(words)
    if options.uninstall is not None:
        uninstall(options.uninstall)
        return Status.DONE
    known = facts(options.gate)
    tree, built = tree_of(built_program(options.program), known)
    if options.install is not None:
        install(with_record(tree, built, known), options.install)
    else:
        write_packages(packages(tree, built, known), options.folder)
    return Status.DONE


def main(words=None):
    """Makes what the words ask for, and returns the exit status."""
    return status_of("package", partial(make, words))
