"""Hostile texts that a rule makes, with what is to come of them: many objects, many that wait, rings, many keys; and
inputs at the limits of stages, and many words."""
from cases import Case, read, unread
from made_cases import MOST_BYTES, STREAMS, made_plan, made_script
from program import NAME, Wanted

MOST_OF_A_CHUNK = 1_048_576
MANY = 10_000
WAITING = 100_000
# What ends all reads that wait, and with which outcome.
ENDS_OF_READS = (
    ("an error", "fail s0 e1", "rejected e1"),
    ("a close", "finish s0", "finished undefined"),
    ("a release", "release l0", "rejected TypeError"),
)


def asked_for(name, line, made, most, count):
    """A script of so many lines that each ask for a stream or two, of which a realm has room for so many."""
    told = [f"{n + 1} {made(n) if n < most else 'too many'}" for n in range(count)]
    return made_script(name, f"{line}\n" * count, "".join(f"{one}\n" for one in told))


def many_streams():
    return [
        asked_for("ten thousand streams", "readable 0 count now", lambda n: f"made s{n}", STREAMS, MANY),
        asked_for(
            "ten thousand transform streams",
            "transform host 0 0 now",
            lambda n: f"made s{2 * n} s{2 * n + 1}",
            STREAMS // 2,
            MANY,
        ),
        asked_for("ten thousand ports", "open writable", lambda n: f"made s{n} port c{n}", STREAMS, MANY),
        asked_for("a hundred thousand signals", "signal", lambda n: f"signal a{n}", WAITING, WAITING),
    ]


def promises(first_line, count, call):
    """So many lines of a call, and what they print: a promise each."""
    return f"{call}\n" * count, "".join(f"{first_line + n} promise p{n}\n" for n in range(count))


def many_that_wait():
    """Reads that wait for a chunk, and closed promises that are all one."""
    begin = "readable 0 count now\nreader s0\nread l0\n"
    begun = "1 made s0\n2 lock l0\n3 promise p0\n  host h0 pull s0\n"
    reads, read = promises(3, WAITING, "read l0")
    read = read.replace("3 promise p0\n", "", 1)
    last = WAITING + 3
    each = range(WAITING)
    return [
        *(
            made_script(
                f"a hundred thousand reads, and {what}",
                begin + reads[: -len("read l0\n")] + f"{last_call}\n",
                begun + read + f"{last} done\n" + "".join(f"  p{n} {outcome}\n" for n in each),
            )
            for what, last_call, outcome in ENDS_OF_READS
        ),
        made_script(
            "one promise a hundred thousand times",
            "readable 0 count now\nreader s0\n" + "closed l0\n" * WAITING + "finish s0\n",
            "1 made s0\n2 lock l0\n"
            + "".join(f"{n + 3} promise p0\n" for n in each)
            + f"{last} done\n  p0 fulfilled undefined\n",
        ),
    ]


def rings():
    """A transform stream whose readable half is piped into its writable half: a chunk goes round for ever, and each
    task has all the jobs that a line may have. So it is with a chain of them, whose last end is the first."""

    def ring(name, transforms, tasks):
        text = "transform identity 1 1 now\n" * transforms + "enqueue s1 n1\n"
        text += "".join(f"@0 pipe s{2 * n + 1} s{(2 * n + 2) % (2 * transforms)}\n" for n in range(transforms))
        made = "".join(f"{n + 1} made s{2 * n} s{2 * n + 1}\n" for n in range(transforms))
        piped = "".join(f"{transforms + 2 + n} promise p{n}\n  again\n" for n in range(transforms))
        steps = "".join(f"{2 * transforms + 2 + n} done\n  again\n" for n in range(tasks))
        return made_script(name, text + "step\n" * tasks, f"{made}{transforms + 1} done\n{piped}{steps}")

    return [ring("a ring of one transform stream", 1, 20), ring("a ring of all transform streams", STREAMS // 2, 20)]


def pipes_on_a_signal(count):
    """So many pipes on a signal, which is triggered: each aborts its destination and cancels its source, in order."""
    text = "signal\n" + "readable 0 count now\nwritable 1 count now\n" * count
    text += "".join(f"pipe s{2 * n} s{2 * n + 1} signal=a0\n" for n in range(count)) + "trigger a0 e1\n"
    printed = ["1 signal a0", *(f"{n + 2} made s{n}" for n in range(2 * count))]
    for n in range(count):
        printed += [f"{2 * count + 2 + n} promise p{n}", f"  host h{n} pull s{2 * n}"]
    printed.append(f"{3 * count + 2} done")
    for n in range(count):
        printed += [f"  signal s{2 * n + 1} e1", f"  host h{count + 2 * n} abort s{2 * n + 1} e1"]
        printed.append(f"  host h{count + 2 * n + 1} cancel s{2 * n} e1")
    return made_script("all pipes on one signal", text, "".join(f"{line}\n" for line in printed))


def refused_plan(name, text, number):
    wants = Wanted(b"", f"plan refused {number}\n".encode())
    assert len(text) <= MOST_BYTES, name
    return made_plan(name, text.encode(), [b"check"], lambda words: unread(words, wants))


def many_keys():
    """More keys than any file has, each by its number."""
    tables = "".join(f"[t{n}]\n" for n in range(80_000))
    keys = "".join(f"k{n} = {n}\n" for n in range(60_000))
    below = "".join(f"a.b.k{n} = {n}\n" for n in range(50_000))
    inline = ", ".join(f"k{n} = {n}" for n in range(50_000))
    deep = "".join(f"[{'a.' * 78}k{n}]\n" for n in range(6_000))
    return [
        refused_plan("many keys", "version = 1\n" + keys, 10),
        refused_plan("many keys, and the first once more", "version = 1\n" + keys + "k0 = 0\n", 9),
        refused_plan("many keys, and the last once more", "version = 1\n" + keys + "k59999 = 0\n", 9),
        refused_plan("many keys of a stage", "version = 1\n[[stage]]\nkind = 'hex'\n" + keys, 10),
        refused_plan("many keys of a stage of no such kind", "version = 1\n[[stage]]\nkind = 'sort'\n" + keys, 11),
        refused_plan("many tables", "version = 1\n" + tables, 10),
        refused_plan("many tables, and the first once more", "version = 1\n" + tables + "[t0]\n", 9),
        refused_plan("many keys with dots", "version = 1\n" + below, 10),
        refused_plan("many keys in a line", f"version = 1\na = {{{inline}}}\n", 10),
        refused_plan("many keys in a line, and the first once more", f"version = 1\na = {{{inline}, k0 = 0}}\n", 9),
        refused_plan("many deep tables", "version = 1\n" + deep, 10),
    ]


def hostile_run(name, stages, given, printed, told=""):
    """A run of these stages over an input, without workers and with one for each stage."""

    def plan(has_workers):
        count = len(stages) if has_workers else 0
        tables = [f"[[stage]]\n{keys}\nworker = {min(number, count)}\n" for number, keys in enumerate(stages, 1)]
        return f"version = 1\nworkers = {count}\n{''.join(tables)}".encode()

    def differs(words):
        return read(words, given, Wanted(printed, told.encode()), [4096])

    alone, beside = (made_plan(name, plan(has_workers), [b"run"], differs) for has_workers in (False, True))
    return Case(f"made: {name}", (), lambda: alone.differs() or beside.differs())


def numbered(chunk):
    """What `number` makes of so many chunks that are all the same."""
    return b"".join(b"%d %s" % (number, chunk) for number in range(1, MANY + 1))


def hostile_inputs():
    """Inputs at the limits of stages and beyond."""
    longest = MOST_OF_A_CHUNK * b"a"
    lines, frames = f'kind = "lines"\nmax = {MOST_OF_A_CHUNK}', f'kind = "unframe"\nmax = {MOST_OF_A_CHUNK}'
    as_hex, unhex, number = 'kind = "hex"', 'kind = "unhex"', 'kind = "number"'
    byte_by_byte = 'kind = "fixed"\nn = 1'
    key = bytes(range(1, 65))
    text = bytes(place % 253 for place in range(300_000))
    masked = bytes(byte ^ key[place % 64] for place, byte in enumerate(text))
    beyond = MOST_OF_A_CHUNK + 1
    four_times = (longest + b"\n").hex().encode().hex().encode().hex().encode().hex().encode()
    return [
        hostile_run("a line of the most bytes that any has", [lines], longest + b"\n", longest + b"\n"),
        hostile_run("a byte more", [lines], longest + b"a\n", b"", f"stage 1 code 1 place {MOST_OF_A_CHUNK}\n"),
        hostile_run("such a line four times in hexadecimal", [lines, *[as_hex] * 4], longest + b"\n", four_times),
        hostile_run("lines of no byte", [lines, number], b"\n" * MANY, numbered(b"\n")),
        hostile_run("a frame of the most bytes", [frames], MOST_OF_A_CHUNK.to_bytes(4, "big") + longest, longest),
        hostile_run("a frame of a byte more", [frames], beyond.to_bytes(4, "big"), b"", "stage 1 code 4 place 0\n"),
        hostile_run("the longest length", [frames], b"\0\0\0\1a" + b"\xff" * 4, b"a", "stage 1 code 4 place 5\n"),
        hostile_run("a length that is cut off", [frames], b"\0\0\0", b"", "stage 1 code 5 place 3\n"),
        hostile_run("a frame that is cut off", [frames], b"\0\0\0\2a", b"", "stage 1 code 5 place 5\n"),
        hostile_run("frames of no byte", [frames, number], bytes(4 * MANY), numbered(b"")),
        hostile_run("no digit but a zero byte", [unhex], b"00\0", b"\0", "stage 1 code 2 place 2\n"),
        hostile_run("ends of lines alone", [unhex], b"\r\n" * 50_000, b""),
        hostile_run("a digit behind line feeds", [unhex], b"\n" * 9_999 + b"a", b"", "stage 1 code 3 place 10000\n"),
        hostile_run("all bytes in hexadecimal and back", [as_hex, unhex], text, text),
        hostile_run("a key of the most bytes", [f'kind = "mask"\nkey = "{key.hex()}"'], text, masked),
        hostile_run("blocks of a byte in frames", [byte_by_byte, 'kind = "frame"'], b"a" * MANY, b"\0\0\0\1a" * MANY),
    ]


def many_words():
    """More words than any form has, and a long one."""
    usage = b"usage: streams run [[--trace] FILE] | script | check FILE | gen N SEED FILE\n"

    def words(name, words, told):
        return Case(f"made: {name}", (), lambda: unread([NAME, *words], Wanted(b"", told)))

    return [
        words("ten thousand words", [b"run"] * MANY, usage),
        words("a long word", [b"run" * 30_000], usage),
        words("a long number", [b"gen", b"1" * 90_000, b"1", b"p"], usage),
        words("a long name of a file", [b"check", b"p" * 90_000], b"load fault\n"),
        words("a name of many folders", [b"run", b"../" * 30_000 + b"p"], b"load fault\n"),
    ]


def hostile_made():
    return [
        *many_streams(),
        *many_that_wait(),
        *rings(),
        pipes_on_a_signal(STREAMS // 2),
        *many_keys(),
        *hostile_inputs(),
        *many_words(),
    ]
