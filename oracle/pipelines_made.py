"""Makes random pipeline files, and inputs for them."""

from __future__ import annotations

from random import Random

from kinds import KINDS, Number, is_cut_by_stages
from plans import Plan
from texts import text_lines

LENGTHS = (0, 1, 2, 3, 7, 20, 20, 100, 100, 1_000, 4_095, 4_096, 4_097, 9_000, 65_537, 150_000)
# What a file may have instead of a value or beside it.
ODD_VALUES = ("-1", "0", "9", "65537", "1048577", "1099511627777", "9223372036854775808", "1.0", "true",
              '"1"', "[]", "{}", "1979-05-27", '"5"', '"0g"', '"' + "00" * 65 + '"')


def integer(random: Random, number: int) -> str:
    """A number as TOML may write it."""
    if random.random() < 0.8:
        return str(number)
    return random.choice((f"0x{number:X}", f"0b{number:b}", f"0o{number:o}", f"{number:_}", f"+{number}"))


def quoted(random: Random, text: str) -> str:
    return random.choice((f'"{text}"', f"'{text}'", f'"""{text}"""'))


def random_kinds(random: Random) -> list[str]:
    """Kinds of stages, mostly such as don't see how the input is cut."""
    kinds: list[str] = []
    is_cut = random.random() < 0.03
    for _ in range(random.choice((0, 1, 1, 2, 2, 3, 4, 6, 9, 16, 17 if random.random() < 0.2 else 5))):
        may_be = [kind for kind in KINDS if is_cut or not KINDS[kind].sees_chunks]
        if kinds.count("hex") >= 4 and random.random() < 0.9:
            may_be.remove("hex")
        undone_by = KINDS[kinds[-1]].undone_by if kinds else None
        if undone_by and random.random() < 0.4:
            may_be = [undone_by]
        kind = random.choice(may_be)
        is_cut = is_cut_by_stages(KINDS[kind], is_cut)
        kinds.append(kind)
    return kinds


def stage_keys(random: Random, kind: str) -> dict[str, str]:
    """A stage, without its worker."""
    keys = {"kind": quoted(random, kind)}
    wanted = KINDS[kind].argument
    if isinstance(wanted, Number):
        if wanted.default is None or random.random() < 0.7:
            keys[wanted.key] = integer(random, random.choice(wanted.tried))
    elif wanted:
        digits = random.randbytes(random.choice(wanted.tried)).hex()
        keys[wanted.key] = quoted(random, random.choice((digits, digits.upper())))
    return keys


def with_workers(random: Random, keys: dict[str, str], stages: list[dict[str, str]], workers: int) -> None:
    """Places the stages on so many workers, each of which has one."""
    if workers == 0:
        return
    keys["workers"] = integer(random, workers)
    cuts = sorted(random.sample(range(1, len(stages)), workers - 1))
    worker = 1
    for index, stage in enumerate(stages):
        if index in cuts:
            worker += 1
            stage["worker"] = integer(random, worker)
        elif random.random() < 0.3:
            stage["worker"] = integer(random, worker)


def made_odd(random: Random, keys: dict[str, str], stages: list[dict[str, str]]) -> None:
    """Changes a key, leaves one out or adds one."""
    table = random.choice([table for table in (keys, *stages) if table] or [keys])
    chance = random.random()
    if chance < 0.3 and table:
        table.pop(random.choice(list(table)))
    elif chance < 0.6 and table:
        table[random.choice(list(table))] = random.choice(ODD_VALUES)
    elif chance < 0.7 and stages:
        random.shuffle(stages)
    else:
        more = ("version", "workers", "abort_after", "max_input", "kind", "worker", "max", "n", "key", "else")
        table[random.choice(more)] = random.choice(ODD_VALUES)


def file_of(random: Random, keys: dict[str, str], stages: list[dict[str, str]]) -> bytes:
    """The text of a file."""
    end = random.choice(("\n", "\n", "\r\n", " # so\n"))
    text = "".join(f"{key} = {value}{end}" for key, value in keys.items())
    if random.random() < 0.15:
        tables = ", ".join("{ " + ", ".join(f"{key} = {value}" for key, value in stage.items()) + " }"
                           for stage in stages)
        return f"{text}stage = [{tables}]{end}".encode()
    for stage in stages:
        text += f"[[stage]]{end}" + "".join(f"{key} = {value}{end}" for key, value in stage.items())
    return text.encode()


def with_ends(random: Random, keys: dict[str, str], most_input: int) -> None:
    """Has some runs end before all that comes out of an input of this length is written."""
    if random.random() < 0.2:
        keys["abort_after"] = integer(random, random.choice((1, 5, 100, 5_000, most_input + 1)))
    if random.random() < 0.2:
        keys["max_input"] = integer(random, max(0, most_input + random.choice((-5000, -1, 0, 1))))


def random_file(random: Random, most_input: int) -> bytes:
    """A pipeline file. Of ten, two or three are refused."""
    stages = [stage_keys(random, kind) for kind in random_kinds(random)]
    keys = {"version": "1"}
    with_workers(random, keys, stages, min(random.choice((0, 0, 1, 2, 3, 8)), len(stages)))
    with_ends(random, keys, most_input)
    if random.random() < 0.2:
        for _ in range(random.choice((1, 1, 1, 2))):
            made_odd(random, keys, stages)
    return file_of(random, keys, stages)


def without_workers(keys: dict[str, str], stages: list[dict[str, str]]) -> tuple[dict, list[dict]]:
    """The same keys and stages on no worker."""
    stages = [{key: value for key, value in stage.items() if key != "worker"} for stage in stages]
    return {key: value for key, value in keys.items() if key != "workers"}, stages


def random_input(random: Random, plan: Plan | None, length: int) -> bytes:
    """An input of about this length, mostly of a form that the first stages are for."""
    kinds = [KINDS[stage.kind] for stage in plan.stages] if plan else []
    make = next((kind.inputs for kind in kinds if kind.inputs), text_lines)
    chance = random.random()
    if chance < 0.1:
        return random.randbytes(length)
    text = bytearray(make(random, length))
    if chance > 0.9 and text:
        text[random.randrange(len(text))] = random.randrange(256)
    return bytes(text)
