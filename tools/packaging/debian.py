"""The package of Debian: the files of an installation below usr/, and what dpkg reads about them."""

import hashlib
import re
import textwrap

from packaging.archives import debian_archive, tar
from packaging.files import File, compressed
from packaging.tree import DOC, HOME, ZSH, with_record

ARCHITECTURE = "amd64"
PYTHON = "3.9"
ZSH_HERE = "share/zsh/vendor-completions"  # where zsh looks in Debian
ABOUT = """checks, simulates and runs block diagrams of several rates
 dbp reads diagrams of tasks that have several rates and read each other's
 outputs. It evaluates them, simulates them on a processor, bounds response
 times, and runs them in threads by the Dynamic Buffering Protocol, so that
 each read gets the value of the diagram's meaning. That is proved of the
 program; the record of the proof is in /usr/lib/dbp/proved.txt, and
 dbp-verify compares it with the installed files.
 .
 The tools check, lay out, draw and edit documents, judge response times,
 write reports, waveforms and C.
"""


def needed_library(program):
    """Returns the least version of the C library that has all that the program calls."""
    versions = {tuple(map(int, it.split(b"."))) for it in re.findall(rb"\0GLIBC_([\d.]+)(?=\0)", program)}
    return ".".join(map(str, max(versions, default=(2, 2))))


def changelog(facts):
    """Returns the changes as Debian writes them."""
    parts = []
    for it in facts.releases:
        lines = [textwrap.fill(text, 78, initial_indent="  * ", subsequent_indent="    ", break_on_hyphens=False,
                               break_long_words=False) for text in it.changes]
        signed = f" -- {facts.maintainer}  {it.time:%a, %d %b %Y %H:%M:%S +0000}"
        parts.append(f"dbp ({it.version}) unstable; urgency=medium\n\n" + "\n".join(lines) + f"\n\n{signed}\n")
    return "\n".join(parts)


def control(tree, facts):
    """Returns what dpkg is told of the package."""
    size = sum((len(it.content) + 1023) // 1024 if isinstance(it, File) else 1 for it in tree.values())
    needed = needed_library(tree[f"{HOME}/dbp"].content)
    return f"""Package: dbp
Version: {facts.version}
Architecture: {ARCHITECTURE}
Maintainer: {facts.maintainer}
Installed-Size: {size}
Depends: libc6 (>= {needed}), python3 (>= {PYTHON})
Suggests: gcc, graphviz, gtkwave, libjs-codemirror, make
Section: devel
Priority: optional
Description: {ABOUT}"""


def sums(tree):
    """Returns the checksums that dpkg keeps of the files."""
    files = {path: it for path, it in sorted(tree.items()) if isinstance(it, File)}
    return "".join(f"{hashlib.md5(it.content).hexdigest()}  usr/{path}\n" for path, it in files.items())


def debian_package(tree, built, facts):
    """Returns the package of a tree without a record."""
    moved = {path.replace(f"{ZSH}/", f"{ZSH_HERE}/"): it for path, it in tree.items()}
    moved[f"{DOC}/changelog.gz"] = compressed(changelog(facts))
    whole = with_record(moved, built, facts)
    about = {"control": File(control(whole, facts).encode()), "md5sums": File(sums(whole).encode())}
    data = {f"usr/{path}": it for path, it in whole.items()}
    members = {
        "debian-binary": b"2.0\n",
        "control.tar.gz": tar(about, ".", facts.time),
        "data.tar.gz": tar(data, ".", facts.time),
    }
    return debian_archive(members, facts.time)
