"""Cases that are too long to be written down: each is made by a rule, and so is what is to come of it."""
import pathlib
import resource
import tempfile

from cases import Case, read, unread
from program import NAME, Wanted, call

STREAMS = 1024  # a realm has no more
MOST_BYTES = 1_048_576  # of a script, and of a pipeline file
MOST_OF_A_LINE = 65_536
TEES = 300
ROOMS = 4096  # of reads, of 64 KiB each
LITTLE = ROOMS * 65_536 // 2  # less memory than all of them take


def made_script(name, text, printed, told=""):
    wants = Wanted(printed.encode(), told.encode())
    return Case(f"made: {name}", (), lambda: read([NAME, b"script"], text.encode(), wants, [4096]))


def readables(count):
    """Readable streams, of which none is read."""
    return "readable 0 count now\n" * count, "".join(f"{n} made s{n - 1}\n" for n in range(1, count + 1))


def full_realm(name, text, printed, made):
    """A script that begins with so many readable streams."""
    before, of_them = readables(made)
    return made_script(name, before + text, of_them + printed)


def full_realms():
    """A realm has 1,024 streams, and goes on after it refused more."""
    return [
        full_realm(
            "a stream too many",
            "readable 0 count now\nrelease l0\nstate s1023\n",
            "1025 too many\n1026 throws Unsupported\n1027 state readable s total 0 queue 0 requests 0\n",
            made=STREAMS,
        ),
        full_realm(
            "room for one stream and not for two halves",
            "transform identity 0 0 now\nreadable 0 count now\ntransform host 0 0 now\n",
            "1024 too many\n1025 made s1023\n1026 too many\n",
            made=STREAMS - 1,
        ),
        made_script(
            "room for the last two halves",
            "transform identity 0 0 now\n" * 513 + "readable 0 count now\n",
            "".join(f"{n} made s{2 * n - 2} s{2 * n - 1}\n" for n in range(1, 513)) + "513 too many\n514 too many\n",
        ),
        full_realm(
            "room for one stream and not for two branches",
            "tee s0\nreader s0\ntee s0\nreadable 0 count now\n",
            "1024 too many\n1025 lock l0\n1026 throws TypeError\n1027 made s1023\n",
            made=STREAMS - 1,
        ),
        full_realm(
            "room for the last two branches",
            "tee s0\ntee s0\ntee s1\n",
            "1023 made s1022 s1023\n  host h0 pull s0\n1024 throws TypeError\n1025 too many\n",
            made=STREAMS - 2,
        ),
        full_realm(
            "room for one end of a port",
            "open writable\nreader s0\nsend s0\nsend s1\nsend s1023\nopen readable\nsend s1024\n",
            "1024 made s1023 port c0\n1025 lock l0\n1026 throws DataClone\n1027 too many\n1028 too many\n"
            "1029 too many\n1030 throws Unsupported\n",
            made=STREAMS - 1,
        ),
    ]


def scripts_of_the_most_bytes():
    """A text of the most bytes, and one of a byte more, which is refused before its lines are looked at."""
    return [
        made_script("a comment of the most bytes", "#" * MOST_BYTES, ""),
        made_script("a comment of a byte more", "#" * (MOST_BYTES + 1), "", "script refused 0\n"),
        made_script("a bad line of the most bytes", "!" * MOST_BYTES, "", "script refused 1\n"),
        made_script("a bad line of a byte more", "!" * (MOST_BYTES + 1), "", "script refused 0\n"),
    ]


def in_little_memory(name, text, printed, told=""):
    def limit():
        resource.setrlimit(resource.RLIMIT_AS, (LITTLE, LITTLE))

    wants = Wanted(printed.encode(), told.encode())
    return Case(f"made: {name}", (), lambda: call([NAME, b"script"], text.encode(), limit=limit)[0].differs(wants))


def rooms_of_reads():
    """A room is taken as its line is performed, and given back where the call throws."""
    reads = "readinto l0 65536 1\n" * ROOMS
    thrown = "".join(f"{n} throws Unsupported\n" for n in range(1, ROOMS + 1))
    return [
        in_little_memory("rooms of reads that throw", reads, thrown),
        in_little_memory("rooms before a bad line", reads + "!\n", "", f"script refused {ROOMS + 1}\n"),
    ]


def chain_of_tees():
    """Tees, each but the first of the first branch of the one before.

    The last first branch reads a chunk; then each branch that no tee reads is cancelled, and at last the source. It is
    pulled once and cancelled once, and all cancels are fulfilled by that one."""
    text = ["readable 0 count now", "tee s0"]
    text += [f"tee s{2 * tee - 1}" for tee in range(1, TEES)]
    text += [f"reader s{2 * TEES - 1}", f"read l{TEES}", "enqueue s0 n1"]
    text += [f"cancel s{2 * tee} e{tee}" for tee in range(1, TEES + 1)]
    text += [f"cancel l{TEES} e0", "settle h1 ok"]
    printed = ["1 made s0", "2 made s1 s2", "  host h0 pull s0"]
    printed += [f"{tee + 1} made s{2 * tee - 1} s{2 * tee}" for tee in range(2, TEES + 1)]
    printed += [f"{TEES + 2} lock l{TEES}", f"{TEES + 3} promise p0", f"{TEES + 4} done", "  p0 given n1"]
    printed += [f"{TEES + 4 + tee} promise p{tee}" for tee in range(1, TEES + 2)]
    printed += ["  host h1 cancel s0 [pair,e1]", f"{2 * TEES + 6} done"]
    printed += [f"  p{tee} fulfilled undefined" for tee in range(1, TEES + 2)]
    return made_script("a chain of tees", "\n".join(text) + "\n", "\n".join(printed) + "\n")


def made_plan(name, text, words, differs):
    """A case of a pipeline file that lies in a folder of its own."""

    def in_a_folder():
        with tempfile.TemporaryDirectory() as folder:
            plan = pathlib.Path(folder, "plan.toml")
            plan.write_bytes(text)
            return differs([NAME, *words, plan])

    return Case(f"made: {name}", (), in_a_folder)


def plans_of_the_most_bytes():
    """A comment alone, which lacks a version. One byte more, and it is too long."""
    return [
        made_plan(name, b"#" * count, [b"check"], lambda words, told=told: unread(words, Wanted(b"", told)))
        for name, count, told in [
            ("a plan of the most bytes", MOST_BYTES, b"plan refused 10\n"),
            ("a plan of a byte more", MOST_BYTES + 1, b"plan refused 8\n"),
        ]
    ]


def made_run(name, kinds, given, wants, pieces):
    """A run of these stages."""
    text = "version = 1\n" + "".join(f"[[stage]]\n{kind}\n" for kind in kinds)
    return made_plan(name, text.encode(), [b"run"], lambda words: read(words, given, wants, pieces))


def long_runs():
    numbered = ['kind = "lines"', 'kind = "number"']
    line = b"a" * MOST_OF_A_LINE
    mask = 'kind = "mask"\nkey = "20"'
    many = ['kind = "fixed"\nn = 7', 'kind = "hex"', 'kind = "unhex"', mask, mask, 'kind = "fixed"\nn = 3']
    chunks = b"a" * 10_000
    lengths = [1, 2, 3, 7, 61, 4096]
    whole = Wanted(b"1 " + line + b"\n2 end", b"")
    bad = Wanted(b"", b"stage 1 code 1 place 65536\n")
    return [
        made_run("a line of the most bytes", numbered, line + b"\nend", whole, lengths),
        made_run("a line of a byte more", numbered, b"a" + line + b"\nend", bad, lengths),
        made_run("more chunks than a turn has events", many, chunks, Wanted(chunks, b""), [4096]),
    ]


def copies():
    """In more than one read and more than one write, also by the buffers of the program."""

    def copy(count):
        given = bytes(place % 251 for place in range(count))
        wants = Wanted(given, b"")
        return Case(f"made: a copy of {count} bytes", (), lambda: read([NAME, b"run"], given, wants, [4096]))

    return [copy(0), copy(5000), copy(200_000)]


def made_cases():
    return [
        *full_realms(),
        *scripts_of_the_most_bytes(),
        *rooms_of_reads(),
        chain_of_tees(),
        *plans_of_the_most_bytes(),
        *long_runs(),
        *copies(),
    ]
