"""Archives of the proved program for machines without the Rattle kit: a tar file with `install.sh`, and a wheel.

Both hold the program, these tools, the sums of all that the proof rests on, and a note that says what was proved, by
which kit and from which commit. The same program and texts make the same bytes.
"""
import base64
import gzip
import hashlib
import io
import os
import re
import subprocess
import tarfile
import zipfile
from collections.abc import Iterable, Mapping
from dataclasses import dataclass
from pathlib import Path

from ..errors import Fault
from ..version import VERSION
from .installing import COMMAND, PACKAGE, PROGRAM, files_of
from .sums import program_path, sums_text

MACHINE = "x86_64"
NAME = f"{PROGRAM}-{VERSION}-{MACHINE}"
EPOCH = (2026, 1, 1, 0, 0, 0)  # the date of every file in an archive, so that equal contents make equal bytes
SUMS, NOTE, INSTALL = "SHA256SUMS", "PROVED.md", "install.sh"

INSTALL_TEXT = """#!/bin/sh
# ./install.sh DIR: checks the files beside this script and copies ltm, ltm-tools and ltm_tools into DIR.
set -eu
[ $# = 1 ] || { echo "usage: ./install.sh DIR, as in: ./install.sh ~/.local/bin" >&2; exit 2; }
here=$(cd -- "$(dirname -- "$0")" && pwd)
(cd -- "$here" && sha256sum --quiet --check SHA256SUMS) || {
    echo "install.sh: these are not the files that were packed: unpack the archive again" >&2; exit 1; }
said=$("$here/ltm" 2>&1 >/dev/null </dev/null) || [ $? = 2 ] || {
    echo "install.sh: ltm does not run on this machine: {needs}: $said" >&2; exit 1; }
mkdir -p -- "$1"
into=$(cd -- "$1" && pwd)
[ "$into" != "$here" ] || {
    echo "install.sh: $into is where the archive was unpacked: name another folder" >&2; exit 1; }
for name in ltm ltm-tools ltm_tools; do
    [ ! -e "$into/$name" ] || [ -f "$into/ltm_tools/installed.sums" ] || {
        echo "install.sh: $into/$name was not installed by this script: move it away, or name another folder" >&2
        exit 1; }
done
made=$(mktemp -d "$into/.ltm-new-XXXXXX")
trap 'rm -rf -- "$made"' EXIT
cp -R -- "$here/ltm_tools" "$here/ltm-tools" "$here/ltm" "$made/"
cp -- "$here/SHA256SUMS" "$made/ltm_tools/installed.sums"
for name in ltm_tools ltm-tools ltm; do
    [ ! -e "$into/$name" ] || mv -- "$into/$name" "$made/$name.before"
    mv -- "$made/$name" "$into/$name"
done
echo "installed: $into/ltm and $into/ltm-tools"
"""

WHEEL_TEXT = """Wheel-Version: 1.0
Generator: ltm
Root-Is-Purelib: false
Tag: {tag}
"""

NOTE_TEXT = """# What is in this archive

`ltm` {version}, built from commit {commit} and proved by {kit}.

It needs {needs}. The program was built from crates that the prover
accepted, whole. `ltm.sums` has the SHA-256 sum of the program and of each text that its proof rests on: check out that
commit in a clone of the repository, and `sha256sum --check ltm.sums` compares the texts. What is proved, and on what it
rests, stands in docs/CLAIMS.md of that commit. The tools (`ltm-tools`) are tested, not proved.

No licence has been chosen yet: all rights remain with the owner, so ask before you pass this archive on.
"""


@dataclass(frozen=True)
class Proved:
    """What is packed: the program, the sums of its proof, and where they come from."""

    program: bytes
    sums: str
    kit: str
    commit: str

    def note(self) -> str:
        """The note that stands in each archive."""
        return NOTE_TEXT.format(version=VERSION, commit=self.commit, kit=self.kit, needs=self.needs())

    def install(self) -> str:
        """The script that installs what is unpacked."""
        return INSTALL_TEXT.replace("{needs}", f"it needs {self.needs()}")

    def needs(self) -> str:
        """The machine that the program needs, in words."""
        library = self.library()
        return f"Linux on {MACHINE}" + (f" with glibc {library[0]}.{library[1]} or later" if library else "")

    def library(self) -> tuple[int, int] | None:
        """The least version of glibc that has all that the program is linked to; None where it names none."""
        found = re.findall(rb"\0GLIBC_(\d+)\.(\d+)", self.program)
        return max((int(first), int(second)) for first, second in found) if found else None

    def wheel(self) -> str:
        """The name of the wheel, by which pip knows whether it can run."""
        library = self.library()
        system = f"manylinux_{library[0]}_{library[1]}" if library else "linux"
        return f"{PROGRAM}-{VERSION}-py3-none-{system}_{MACHINE}"


def proved(top: Path) -> Proved:
    """The proved program of a clone; a Fault where the clone has changes that no commit names."""
    program = program_path(top)
    sums = program.with_name(f"{PROGRAM}.sums").read_text(encoding="utf-8")
    kit = re.match(r"# proved by (.+)\n", sums)
    return Proved(program.read_bytes(), sums, kit[1] if kit else "a Rattle kit that left no name", commit_of(top))


def commit_of(top: Path) -> str:
    """The commit of a clone, in full."""
    try:
        changes = _git(top, "status", "--porcelain")
        commit = _git(top, "rev-parse", "HEAD").strip()
    except (OSError, subprocess.CalledProcessError):
        raise Fault(f"{top} is no clone of the repository, so nothing says which commit is packed") from None
    if changes:
        first = changes.splitlines()[0][3:]
        raise Fault(f"{top} has changes that are not committed, the first in {first}: commit or undo them, then pack")
    return commit


def _git(top: Path, *words: str) -> str:
    done = subprocess.run(["git", "-C", str(top), *words], capture_output=True, text=True, check=True)
    return done.stdout


def tools_of(top: Path) -> dict[str, bytes]:
    """The files of the tools, by their names below the folder where they are installed."""
    package = top / "tools" / PACKAGE
    return {
        f"{PACKAGE}/{path.relative_to(package).as_posix()}": path.read_bytes()
        for path in sorted(files_of(package))
        if path.is_file()
    }


def put_archives(top: Path, into: Path) -> list[Path]:
    """Writes both archives into a folder, each whole or not at all."""
    what, tools = proved(top), tools_of(top)
    command = (top / "tools" / COMMAND).read_bytes()
    into.mkdir(parents=True, exist_ok=True)
    made = []
    for name, data in (
        (f"{NAME}.tar.gz", tar_of(what, {**tools, COMMAND: command})),
        (f"{what.wheel()}.whl", wheel_of(what, tools)),
    ):
        path = into / name
        part = into / f".{name}.{os.getpid()}.new"
        try:
            part.write_bytes(data)
            part.replace(path)
        except OSError as error:
            part.unlink(missing_ok=True)
            raise Fault(f"{path}: {error.strerror or error}") from None
        made.append(path)
    return made


def tar_of(what: Proved, tools: Mapping[str, bytes]) -> bytes:
    """The tar file: program, tools, sums, note and `install.sh` in one folder."""
    files = {PROGRAM: what.program, f"{PROGRAM}.sums": what.sums.encode(), **tools}
    files |= {NOTE: what.note().encode(), INSTALL: what.install().encode()}
    listed = sums_text((name, hashlib.sha256(data).hexdigest()) for name, data in files.items())
    made = io.BytesIO()
    with tarfile.open(fileobj=made, mode="w", format=tarfile.PAX_FORMAT) as tar:
        for name, data in sorted({**files, SUMS: listed.encode()}.items()):
            entry = tarfile.TarInfo(f"{NAME}/{name}")
            entry.size, entry.mode = len(data), 0o755 if name in (PROGRAM, COMMAND, INSTALL) else 0o644
            tar.addfile(entry, io.BytesIO(data))
    return gzip.compress(made.getvalue(), mtime=0)


def metadata() -> str:
    """What pip is told of the wheel."""
    extras = {
        "pictures": ["matplotlib"],
        "fast": ["numpy"],
        "tables": ["numpy", "pandas"],
        "sweep": ["distributed"],
        "live": ["tornado"],
    }
    lines = [
        "Metadata-Version: 2.1",
        f"Name: {PROGRAM}",
        f"Version: {VERSION}",
        "Summary: Dynamic network loading by the Link Transmission Model, exact and proved, with its tools",
        "Requires-Python: >=3.10",
    ]
    for extra, needs in extras.items():
        lines.append(f"Provides-Extra: {extra}")
        lines += [f'Requires-Dist: {need} ; extra == "{extra}"' for need in needs]
    return "\n".join([*lines, ""])


def wheel_of(what: Proved, tools: Mapping[str, bytes]) -> bytes:
    """The wheel: pip puts the program and `ltm-tools` where its commands lie, and the package where packages do."""
    info = f"{PROGRAM}-{VERSION}.dist-info"
    files = {
        **tools,
        f"{PROGRAM}-{VERSION}.data/scripts/{PROGRAM}": what.program,
        f"{info}/{PROGRAM}.sums": what.sums.encode(),
        f"{info}/{NOTE}": what.note().encode(),
        f"{info}/METADATA": metadata().encode(),
        f"{info}/WHEEL": WHEEL_TEXT.format(tag=what.wheel().split("-", 2)[2]).encode(),
        f"{info}/entry_points.txt": f"[console_scripts]\n{COMMAND} = {PACKAGE}.cli:main\n".encode(),
    }
    record = "".join(f"{name},sha256={urlsafe(data)},{len(data)}\n" for name, data in sorted(files.items()))
    record += f"{info}/RECORD,,\n"
    return zip_of([*sorted(files.items()), (f"{info}/RECORD", record.encode())])


def urlsafe(data: bytes) -> str:
    """A sum as a wheel's record has it."""
    return base64.urlsafe_b64encode(hashlib.sha256(data).digest()).rstrip(b"=").decode("ascii")


def zip_of(files: Iterable[tuple[str, bytes]]) -> bytes:
    """A zip file with these files in this order."""
    made = io.BytesIO()
    with zipfile.ZipFile(made, "w", zipfile.ZIP_DEFLATED) as packed:
        for name, data in files:
            entry = zipfile.ZipInfo(name, EPOCH)
            entry.compress_type = zipfile.ZIP_DEFLATED
            entry.external_attr = (0o100755 if "/scripts/" in name else 0o100644) << 16
            packed.writestr(entry, data)
    return made.getvalue()
