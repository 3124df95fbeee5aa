"""Archives whose bytes depend on their files and one time alone: tar, compressed, and the package of Debian."""

import io
import tarfile
from pathlib import PurePosixPath

from packaging.files import Link, gzipped

OWNER = "root"
FIRST = b"!<arch>\n"


def folders_of(paths):
    """Returns the folders of paths, each after those that it is in."""
    return sorted({it.as_posix() for path in paths for it in PurePosixPath(path).parents} - {"."})


def entry(name, kind, right, time):
    """Returns an entry of an archive, of the same owner everywhere."""
    made = tarfile.TarInfo(name)
    made.type, made.mode, made.mtime = kind, right, int(time.timestamp())
    made.uname = made.gname = OWNER
    return made


def tar(tree, root, time):
    """Returns a compressed archive of files below a folder."""
    sink = io.BytesIO()
    with tarfile.open(fileobj=sink, mode="w", format=tarfile.GNU_FORMAT) as archive:
        archive.addfile(entry(root, tarfile.DIRTYPE, 0o755, time))
        for folder in folders_of(tree):
            archive.addfile(entry(f"{root}/{folder}", tarfile.DIRTYPE, 0o755, time))
        for path, it in sorted(tree.items()):
            if isinstance(it, Link):
                made = entry(f"{root}/{path}", tarfile.SYMTYPE, 0o777, time)
                made.linkname = it.target
                archive.addfile(made)
            else:
                made = entry(f"{root}/{path}", tarfile.REGTYPE, 0o755 if it.is_run else 0o644, time)
                made.size = len(it.content)
                archive.addfile(made, io.BytesIO(it.content))
    return gzipped(sink.getvalue())


def debian_archive(members, time):
    """Returns the archive that a package of Debian is, of members by their names."""
    parts = [FIRST]
    for name, content in members.items():
        parts.append(f"{name:<16}{int(time.timestamp()):<12}{0:<6}{0:<6}{'100644':<8}{len(content):<10}`\n".encode())
        parts.append(content + b"\n" * (len(content) % 2))
    return b"".join(parts)
