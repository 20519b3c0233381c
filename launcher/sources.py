"""The crates that the program stands on: which they are, what they are made of, and whether the program was built of just that."""
import contextlib
import functools
import hashlib
import os
import pathlib
import shutil
import typing

ROOT = pathlib.Path(__file__).resolve().parent.parent
PROGRAM = "streams"
OUT = ROOT / "crates" / PROGRAM / "out"
BUILT = OUT / PROGRAM
# The sums of the sources that the program was built of, and of the program.
SUM = OUT / "sources.sum"
# What is proved, and what the program's stored run is made of.
PROVED, RUN = ("src", "specs", "proofs"), ("args", "stdin", "stdout", "status", "data")
# Of the crates that wait for each other, the one that is proved longest: what first_of_two is about.
LONGEST = "ws_node"


class Copy(typing.NamedTuple):
    """What a run of `rt ci` proves: the folder of the copy, its crates, and the crate behind which the next run begins, where there is one."""

    folder: pathlib.Path
    crates: set
    next_behind: str = ""


@functools.lru_cache(maxsize=None)
def rows():
    """Each line of crates.txt by its crate."""
    lines = [line.split("#")[0].strip() for line in (ROOT / "crates.txt").read_text().splitlines()]
    return {line.split()[0].rstrip(":"): line for line in lines if line}


@functools.lru_cache(maxsize=None)
def libraries():
    """Each crate with the repository's own crates that it uses."""
    return {crate: [name for name in row.partition(":")[2].split() if name in rows()] for crate, row in rows().items()}


def with_below(top):
    """A crate and all that it stands on."""
    found, left = set(), [top]
    while left:
        crate = left.pop()
        if crate not in found:
            found.add(crate)
            left += libraries()[crate]
    return found


@functools.lru_cache(maxsize=None)
def needed():
    """The program's crate and all that it stands on."""
    return with_below(PROGRAM)


def look_again():
    """Has crates.txt read anew."""
    for told in (rows, libraries, needed):
        told.cache_clear()


def is_source(path, part):
    """Whether a file is read as the program is built: what an editor leaves beside one isn't. `streams` asks the same."""
    return path.is_file() and not path.name.startswith(".") and (part in RUN or path.suffix in (".rt", ".antt"))


def files(parts, crates, top=ROOT):
    """The files of these parts of the crates, in the checkout or in a copy."""
    for crate in sorted(crates):
        for part in parts:
            path = top / "crates" / crate / part
            if path.is_dir():
                yield from sorted(it for it in path.rglob("*") if is_source(it, part))
            elif path.exists():
                yield path


def sum_of(top=ROOT):
    """A checksum of all that the program is built of."""
    told = hashlib.sha256("\n".join(rows()[crate] for crate in sorted(needed())).encode())
    for path in [top / "HANDLES", *files(PROVED, needed(), top)]:
        told.update(f"\n{path.relative_to(top)}\n".encode())
        told.update(path.read_bytes())
    return told.hexdigest()


def sums_of(program, of_sources):
    """What SUM says of a program that was built of sources with this sum."""
    return f"{of_sources} {hashlib.sha256(program.read_bytes()).hexdigest()}\n"


def is_built():
    """Whether the program is there and is the one that was built of these sources. A file that was only touched changes nothing."""
    look_again()
    try:
        # (by the clock of the file system)
        os.utime(SUM)
        asked = SUM.stat().st_mtime
    except OSError:
        asked = None
    if not os.access(BUILT, os.X_OK) or not SUM.exists() or SUM.read_text() != sums_of(BUILT, sum_of()):
        return False
    if asked is not None:
        # What changed since is newer. (Where that can't be set, it is asked again next time.)
        with contextlib.suppress(OSError):
            os.utime(BUILT, (asked, asked))
    return True


def first_of_two(folder):
    """What the first of two runs proves, in this folder. As a crate begins, `rt ci` shares the idle processors out among all that are ready, and the crate
    gets no more later: beside another one LONGEST would have one processor to its end, and what stands on it would wait. So the first run ends with
    LONGEST, and has no other crate that stands on the last of its libraries, which is the one that stands on the most. Behind that library the second run
    begins, over all crates: it takes what the first proved, proves the others meanwhile, and waits its turn at LONGEST."""
    last = max(libraries()[LONGEST], key=lambda it: len(with_below(it)))
    return Copy(folder, with_below(LONGEST) | {it for it in needed() if last not in with_below(it)}, last)


def copies(room, keeps):
    """Makes the copies that are proved, in the order in which their runs begin. The last one has the program; there is another one where a run can take
    what that proved."""
    made = [Copy(room / "whole", needed())]
    if keeps and LONGEST in needed():
        made.insert(0, first_of_two(room / "first"))
    for copy in made:
        copy_to(copy.folder, copy.crates)
    return made


def copy_to(folder, crates):
    """Copies what the proofs of these crates read: no must-fail edits, no tests, no other program."""
    for path in files(PROVED + RUN, crates):
        to = folder / path.relative_to(ROOT)
        to.parent.mkdir(parents=True, exist_ok=True)
        shutil.copyfile(path, to)
    (folder / "crates.txt").write_text("".join(f"{row}\n" for crate, row in rows().items() if crate in crates))
    shutil.copyfile(ROOT / "HANDLES", folder / "HANDLES")
    # For rt it is the top of a repository.
    (folder / ".git").mkdir()
