#!/usr/bin/env python3
"""Makes `dist/`, the program for those who have no toolchain, and checks it.

  tools/dist.py                     dist/ of crates/tsqld/out/tsqld, as a gate that has ended left it
  tools/dist.py --check             whether dist/ is whole, and made of these sources
  tools/dist.py --check PROGRAM     and whether it is this program, byte for byte, where the kit is the same

`dist/MANIFEST` has the SHA-256 of the program, what `rt version` prints, and one SHA-256 of all that the program is made of. The
status of a check is 1 where dist/ is not whole, or is another program than it must be. It is 0 where the sources or the kit have
changed since, or there is no dist/: it is made anew behind the next gate.
"""
import hashlib
import os
import pathlib
import shutil
import subprocess
import sys

TOP = pathlib.Path(__file__).resolve().parent.parent
CRATES = TOP / "crates"
BUILT = CRATES / "tsqld/out/tsqld"
DIST = TOP / "dist/tsqld-x86_64-linux"
MANIFEST = TOP / "dist/MANIFEST"


def crate_lines():
    """The lines of crates.txt of the program's crate and of those that it stands on, the lowest first."""
    needed, lines = {"tsqld"}, []
    for line in reversed((TOP / "crates.txt").read_text().splitlines()):
        name, _, below = line.partition(":")
        if not line.startswith("#") and name.split()[:1] and name.split()[0] in needed:
            needed.update(below.split())
            lines.insert(0, line)
    return lines


def crates():
    """The names of these crates."""
    return [line.partition(":")[0].split()[0] for line in crate_lines()]


def sources():
    """The files that the program is made of."""
    folders = [os.path.join(CRATES, name, part) for name in crates() for part in ("src", "specs", "proofs")]
    return sorted(os.path.join(at, name) for folder in folders for at, _, names in os.walk(folder) for name in names)


def sum_of(file):
    with open(file, "rb") as it:
        return hashlib.sha256(it.read()).hexdigest()


def sum_of_sources():
    """One SHA-256 over the names and the contents of these files, and over the lines of their crates."""
    whole = hashlib.sha256("\n".join(crate_lines()).encode())
    for file in sources():
        whole.update(f"\n{os.path.relpath(file, CRATES)} {sum_of(file)}".encode())
    return whole.hexdigest()


def kit():
    """What `rt version` prints, or nothing where there is no toolchain."""
    if not shutil.which("rt"):
        return None
    return subprocess.run(["rt", "version"], capture_output=True, text=True, check=True).stdout.strip()


def manifest():
    """What the manifest says, by its words; nothing where there is none."""
    if not MANIFEST.exists():
        return {}
    return dict(line.split(" ", 1) for line in MANIFEST.read_text().splitlines())


def fits():
    """Whether the program in dist/ is made of these sources."""
    told = manifest()
    return bool(told) and DIST.exists() and told["sources"] == sum_of_sources()


def is_newer(program):
    """Whether a program is newer than all that it is made of."""
    if not os.access(program, os.X_OK):
        return False
    made = os.stat(program).st_mtime
    return all(os.stat(file).st_mtime <= made for file in [TOP / "crates.txt", *sources()])


def current():
    """The program of these sources: the one that was proved and built here, or the one in dist/; nothing where neither is."""
    return BUILT if is_newer(BUILT) else DIST if fits() else None


def make():
    if not is_newer(BUILT):
        sys.exit("dist: crates/tsqld/out/tsqld is missing, or older than its sources: run the gate first")
    version = kit()
    if version is None:
        sys.exit("dist: rt, the toolchain's command, is not there")
    DIST.parent.mkdir(exist_ok=True)
    shutil.copyfile(BUILT, DIST)
    DIST.chmod(0o755)
    MANIFEST.write_text(f"program {sum_of(DIST)}\nkit {version}\nsources {sum_of_sources()}\n")
    print(MANIFEST.read_text(), end="")


def check(program):
    told = manifest()
    if not told:
        print("dist: there is none")
        return
    if not DIST.exists() or sum_of(DIST) != told["program"]:
        sys.exit("dist: the program is not the one of its manifest")
    if told["sources"] != sum_of_sources():
        print("dist: the sources have changed since it was made")
    elif program is None:
        print("dist: made of these sources")
    elif told["kit"] != kit() or not program.exists():
        print(f"dist: made of these sources by {told['kit']}; not compared with what {kit() or 'no toolchain'} builds")
    elif program.read_bytes() != DIST.read_bytes():
        sys.exit(f"dist: it differs from {program}, which is made of the same sources by the same kit")
    else:
        print(f"dist: made of these sources, and the same bytes as {program}")


def main():
    words = sys.argv[1:]
    if not words:
        make()
    elif words[0] == "--check" and len(words) <= 2:
        check(pathlib.Path(words[1]) if words[1:] else None)
    else:
        sys.exit(__doc__)


if __name__ == "__main__":
    main()
