"""Makes random inputs of a form: lines, hexadecimal text, and chunks with their length before them."""

from __future__ import annotations

from random import Random

LETTERS = bytes(65 + byte % 26 for byte in range(256))


def text_lines(random: Random, length: int) -> bytes:
    longest = random.choice((3, 20, 90, 5_000))
    text = bytearray()
    while len(text) < length:
        text += random.randbytes(random.randrange(longest)).translate(LETTERS)
        text += b"\n"
    return bytes(text[:length])


def hex_text(random: Random, length: int) -> bytes:
    text = random.randbytes(length // 2 + 1).hex().encode()
    if random.random() < 0.5:
        text = text.upper().replace(b"00", b"0\n0").replace(b"A", b"a\r\n")
    return text[:length]


def chunks_with_lengths(random: Random, length: int) -> bytes:
    text = bytearray()
    while len(text) < length:
        chunk = random.randbytes(random.choice((0, 1, 2, 3, 15, 200, 5_000)))
        text += len(chunk).to_bytes(4, "big") + chunk
    return bytes(text) if random.random() < 0.7 else bytes(text[:length])
