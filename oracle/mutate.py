"""Makes malformed scripts: scripts with a few random changes of their text.

Most are refused; some are still scripts, and are performed.
"""

from __future__ import annotations

from random import Random

from language import LONGEST_SCRIPT

BYTES = (b" ", b"\t", b"\r", b"\n", b"#", b"@", b"\0", b"\x0b", b"\x0c", b"\xa0", b"\xff",
         b"-", b"+", b"_", b".", b"0", b"1", b"9", b"s", b"l", b"h", b"a", b"q", b"c", b"n", b"e", b"k",
         b"x", b"S", b"X", b"A", b"f", b"g")

WORDS = (
    b"", b"0", b"00", b"01", b"-1", b"+1", b"1.0", b"1_0", b"0x1", b"4294967295",
    b"4294967296", b"18446744073709551615", b"18446744073709551616", b"9" * 60,
    b"s0", b"s00", b"s", b"s4294967295", b"s4294967296", b"S0",
    b"l0", b"l", b"l340282366920938463463374607431768211455",
    b"l340282366920938463463374607431768211456",
    b"h0", b"h", b"h340282366920938463463374607431768211455",
    b"h340282366920938463463374607431768211456", b"h01",
    b"a0", b"a", b"a00", b"a340282366920938463463374607431768211455",
    b"a340282366920938463463374607431768211456", b"signal=a0", b"signal=a1", b"signal=",
    b"signal=a", b"signal=s0", b"signal=0", b"signal==a0", b"Signal=a0", b"signal=a01",
    b"signal=a340282366920938463463374607431768211455",
    b"signal=a340282366920938463463374607431768211456",
    b"prevent-close", b"prevent-abort", b"prevent-cancel", b"prevent", b"prevent-",
    b"prevent-Close", b"preventclose", b"prevent-cancel=",
    b"q0", b"q", b"q00", b"Q0", b"q340282366920938463463374607431768211455",
    b"q340282366920938463463374607431768211456",
    b"c0", b"c", b"c00", b"C0", b"c340282366920938463463374607431768211455",
    b"c340282366920938463463374607431768211456", b"pull", b"Pull", b"chunk", b"error", b"messages",
    b"4096", b"4097", b"65536", b"65537", b"255", b"256",
    b"undefined", b"Undefined", b"n", b"n18446744073709551615", b"n18446744073709551616",
    b"e4294967295", b"e4294967296", b"k4294967295", b"k4294967296", b"e01", b"k",
    b"x", b"x0", b"x0G", b"xaB", b"x\xc3\xa9", b"X00", b"TypeError",
    b"@0", b"@1", b"@", b"@00", b"@100000", b"@100001", b"@-1", b"@@1", b"@1step",
    b"byob", b"readinto", b"request", b"respond", b"ReadInto", b"read-into", b"none",
    b"readable", b"writable", b"reader", b"writer", b"read", b"write", b"cancel", b"close",
    b"abort", b"closed", b"ready", b"release", b"enqueue", b"finish", b"fail", b"desired", b"transform", b"terminate",
    b"identity", b"Identity", b"host", b"Host", b"hosts",
    b"send", b"open", b"deliver", b"Open", b"pipe", b"signal", b"trigger", b"settle", b"state", b"step", b"STEP", b"count", b"bytes", b"now", b"later", b"ok",
    b"#", b"#step", "٣".encode(), "step\u00a0".encode(),
)

LINES = (
    b"", b" ", b"\t", b"\r", b" \r", b"\r\r", b"# a comment", b"#\xff\r", b" # a comment",
    b"step", b"step\r", b"step\r\r", b"\tstep \t\r", b"step\r ", b"@0 step", b"@0", b"@1 @1 step",
    b"step step", b"readable 1 count", b"readable 1 count now now", b"settle h0",
    b"settle h0 ok n1", b"settle h0 fail", b"settle h0 fail x00", b"cancel s0 x00",
    b"abort l0", b"close h0", b"desired h0", b"signal a0", b"trigger a0", b"trigger a0 x00",
    b"trigger s0 e1", b"pipe s0", b"pipe s0 l0", b"pipe s0 s1 s2",
    b"pipe s0 s1 prevent-close prevent-close", b"pipe s0 s1 signal=a0 signal=a1",
    b"pipe s0 s1 prevent-cancel prevent-abort signal=a0 prevent-close",
    b"pipe s0 s1 prevent-cancel prevent-abort signal=a0 prevent-close prevent-close",
    b"transform identity 1 0 now", b"transform host 0 18446744073709551615 later",
    b"transform host 1 18446744073709551616 now", b"transform identity 1 now",
    b"transform identity 1 0 count now", b"transform host 1 0 now now", b"transform 1 0 host now",
    b"terminate s0", b"terminate l0", b"terminate s0 e1", b"terminate",
    b"bytes 0 0 now", b"bytes 18446744073709551615 4096 later", b"bytes 18446744073709551616 0 now",
    b"bytes 0 4097 now", b"bytes 0 now", b"bytes 0 count now", b"bytes 0 0 now now",
    b"bytes 0 00 now",
    b"byob s0", b"byob l0", b"byob", b"byob s0 s0", b"readinto l0 8 4", b"readinto l0 65536 255",
    b"readinto l0 65537 1", b"readinto l0 8 256", b"readinto l0 8", b"readinto l0 8 4 1",
    b"readinto l0 8 4 0", b"readinto l0 8 4 3", b"readinto l0 8 4 01", b"readinto l0 8 4 1 1",
    b"readinto l0 8 4 18446744073709551615", b"readinto l0 8 4 18446744073709551616",
    b"readinto l0 8 4 now", b"readinto s0 8 4", b"readinto l0 0 0", b"readinto l0 08 4",
    b"request s0", b"request l0", b"request q0", b"request", b"request s0 s0", b"respond q0 x",
    b"respond q0 x00FF", b"respond q0 x0", b"respond q0 n1", b"respond q0 undefined", b"respond q0",
    b"respond s0 x00", b"respond q0 x00 x00", b"respond q0 1",
    b"write s0 n1", b"read s0", b"tee s0",
    b"send s0", b"send l0", b"send", b"send s0 s0", b"open readable", b"open writable", b"open bytes",
    b"open", b"open readable now", b"deliver c0 pull", b"deliver c0 close", b"deliver c0 chunk x00",
    b"deliver c0 chunk k1", b"deliver c0 chunk", b"deliver c0 error e1", b"deliver c0 error x00",
    b"deliver c0 error", b"deliver c0 pull n1", b"deliver c0 close e1", b"deliver s0 pull",
    b"deliver c0 open", b"deliver c0", b"deliver",
)


def mutated_script(random: Random, script: bytes) -> bytes:
    """The script with a few changes. Few scripts are as long as a script may be."""
    for _ in range(random.choice((1, 1, 1, 2, 3, 8))):
        change = random.choice((change_byte, change_word, exchange_word, change_line))
        script = change(random, script)
    if random.random() < 0.25:
        script = script.removesuffix(b"\n")
    if random.random() < 0.002:
        script = padded(script, LONGEST_SCRIPT + random.choice((-1, 0, 1)))
    return script


def change_byte(random: Random, script: bytes) -> bytes:
    """Puts a byte in, takes one out, or puts one in another's place."""
    place = random.randint(0, len(script))
    removed = random.choice((0, 1, 1))
    added = random.choice((b"", random.choice(BYTES), random.choice(BYTES)))
    return script[:place] + added + script[place + removed:]


def change_word(random: Random, script: bytes) -> bytes:
    """Puts a word in a line, takes one out, or puts one in another's place."""
    lines = script.split(b"\n")
    place = random.randrange(len(lines))
    words = lines[place].split(b" ")
    at = random.randint(0, len(words))
    removed = random.choice((0, 1, 1))
    added = random.choice(([], [random.choice(WORDS)], [random.choice(WORDS)]))
    blank = random.choice((b" ", b" ", b"\t", b"  "))
    lines[place] = blank.join(words[:at] + added + words[at + removed:])
    return b"\n".join(lines)


def exchange_word(random: Random, script: bytes) -> bytes:
    """Puts a word in the place of one that begins alike, so that it is near to what may stand
    there."""
    lines = script.split(b"\n")
    place = random.randrange(len(lines))
    words = lines[place].split(b" ")
    at = random.randrange(len(words))
    alike = [word for word in WORDS if word[:1] == words[at][:1]]
    words[at] = random.choice(alike or WORDS)
    lines[place] = b" ".join(words)
    return b"\n".join(lines)


def change_line(random: Random, script: bytes) -> bytes:
    """Puts a line in."""
    lines = script.split(b"\n")
    lines.insert(random.randint(0, len(lines)), random.choice(LINES))
    return b"\n".join(lines)


def padded(script: bytes, length: int) -> bytes:
    """The script with a comment before it, so that it is so long."""
    return b"#" + b"." * (length - len(script) - 2) + b"\n" + script
