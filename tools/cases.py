#!/usr/bin/env python3
"""Makes what the programs `vectors` and `tagline` are run on, and what they must write, always in the same order.

    tools/cases.py

It reads tools/published.txt, the rows of published tables: `hash H MESSAGE CODE` and `tag A H T KEY MESSAGE TAG`. A published
value is taken from there as it stands, and reference.py has to agree with it. Where no table has a case, the expected answer is
reference.py's.
"""
from pathlib import Path

from reference import ALGORITHMS, HASHES, LONGEST, agrees, ask, hexed, message_of, most, reply, rounds, rows_of, unhex

ROOT = Path(__file__).resolve().parent.parent
KEY = bytes.fromhex("00112233445566778899AABBCCDDEEFF")
LONG_KEY = bytes(range(65))
MESSAGE = bytes((7 * i + i // 64) % 256 for i in range(600))

# Answers that are known besides the tables: each is compared with the reference's.
KNOWN = [
    ((1, 1, 10, KEY, b""), "B7F4508111EB8C3B5229 8"),
    ((2, 1, 10, KEY, b""), "9EBEA41FBC24CD80BF2E 4"),
    ((3, 1, 10, KEY, b""), "6606EF2D3BBD010F516C 7"),
    ((3, 1, 11, KEY, b""), "no 4"),
]
KNOWN_SHORT = ((3, 1, 10, KEY, bytes(32)), "5521ED3FE82625CCF089 7")


def line(algorithm, hash, t, key, message):
    return f"{algorithm} {hash} {t} {hexed(key)} {hexed(message)}".encode()


def published(name):
    return rows_of((ROOT / "tools" / name).read_bytes())


def covered(row):
    """Whether a row is one that the programs are to meet; the reference has to agree with it then."""
    agreed = agrees(row)
    if agreed is False:
        raise SystemExit(f"the reference differs: {row.decode()}")
    return agreed is not None


def published_lines(rows):
    """The rows of tags whose message fits on a line, with the published tag, or the refusal that they give now."""
    for row in rows:
        kind, *fields = row.split()
        text = b" ".join(fields[:5])
        if kind != b"tag" or b"*" in text or len(text) > LONGEST:
            continue
        algorithm, hash, t = (int(field) for field in fields[:3])
        n = len(message_of(fields[4]))
        refusal = ask(algorithm, hash, t, len(unhex(fields[3])), n)
        yield text, f"no {refusal}" if refusal else f"{fields[5].decode()} {rounds(algorithm, n)}"


def pairs(algorithms=(1, 2, 3)):
    """The algorithms and the hashes that they work with."""
    return [(a, h) for a in algorithms for h in HASHES if not ask(a, h, 1, 16, 0)]


def answered():
    """Lines that get a tag and that no table has: lengths of messages, tags and keys at their edges."""
    for a, h in pairs((1, 2)):
        for n in (0, 55, 56, 63, 64, 65, 119, 120, 128):
            yield line(a, h, most(a, h), KEY, MESSAGE[:n])
    for a, h in pairs((3,)):
        for n in (0, 1, 31, 32):
            yield line(a, h, most(a, h), KEY, MESSAGE[:n])
    for a, h in pairs():
        for t in (1, most(a, h)):
            yield line(a, h, t, KEY, MESSAGE[:20])
        least, longest = ALGORITHMS[a].key
        for k in (least, least + 1, longest - 1, longest):
            yield line(a, h, most(a, h), LONG_KEY[:k], MESSAGE[:20])
    # a message of 500 bytes and of zeros, a key of zeros, leading zeros in the numbers
    yield line(1, 1, 20, b"\1", MESSAGE[:500])
    yield line(2, 3, 20, bytes(16), bytes(64))
    yield line("002", "04", "009", KEY, b"\0")


def refused():
    """Lines that get a refusal, at both edges of each question, and lines that fail several."""
    for a in (0, 4, 10, 11, 999):
        yield line(a, 1, 10, KEY, b"")
    for h in (0, 2, 5, 6, 7, 8, 9, 13, 999):
        yield line(2, h, 10, KEY, b"")
    for a in (1, 3):
        yield line(a, 4, 10, KEY, b"")
    for a, h in pairs():
        least, longest = ALGORITHMS[a].key
        for k in (least - 1, longest + 1):
            yield line(a, h, 10, LONG_KEY[:k], b"")
        for t in (0, most(a, h) + 1, 999):
            yield line(a, h, t, KEY, b"")
    for a, h in pairs((3,)):
        for n in (33, 64):
            yield line(a, h, 10, KEY, MESSAGE[:n])
    # the first no is the answer: 1 before all, 2 before 3 4 5, 3 before 4 5, 4 before 5
    for numbers in ((3, 8, 0), (4, 4, 0), (0, 0, 0)):
        yield line(*numbers, b"", MESSAGE[:33])
    for a in (1, 3):
        yield line(a, 4, 0, b"", MESSAGE[:33])
        yield line(a, 4, 10, b"", b"")
        yield line(a, 4, 999, KEY, b"")
    yield line(3, 4, 10, KEY, MESSAGE[:33])
    for a, h in pairs():
        yield line(a, h, 0, LONG_KEY[:65], MESSAGE[:33])
    yield line(3, 3, 10, b"", MESSAGE[:33])
    yield line(3, 3, 0, KEY, MESSAGE[:33])
    yield line(3, 1, 11, KEY, MESSAGE[:33])


def malformed():
    """Lines of another form. A fine line stands between some, to see that each is taken for itself."""
    fine = line(2, 4, 8, KEY, b"abc")
    yield b""
    yield b" "
    yield b"-"
    yield b"no line"
    # fields: missing, one too many, empty, two spaces, a space at either end, a tab
    for k in range(1, 5):
        yield b" ".join(fine.split()[:k])
    yield fine.rsplit(b" ", 1)[0] + b" "
    yield fine + b" 00"
    yield fine + b" -"
    for k in range(1, 5):
        fields = fine.split()
        yield b" ".join(fields[:k]) + b"  " + b" ".join(fields[k:])
    yield b" " + fine
    yield fine + b" "
    yield fine.replace(b" ", b"\t")
    yield fine.replace(b" ", b",")
    yield fine
    # numbers: four digits, a sign, hexadecimal, no digit, a fraction
    for number in (b"0001", b"1000", b"+1", b"-1", b"A", b"-", b"1.", b"x1"):
        yield number + b" 1 10 " + hexed(KEY).encode() + b" -"
        yield b"2 " + number + b" 10 " + hexed(KEY).encode() + b" -"
        yield b"2 1 " + number + b" " + hexed(KEY).encode() + b" -"
    # bytes: lower case, an odd digit, a letter past F and the bytes around the digits, dashes
    for field in (b"0a", b"aB", b"0", b"000", b"0G", b"G0", b"0/", b":0", b"@0", b"0`", b"--", b"-0", b"0-", b"0x00"):
        yield b"2 1 10 " + hexed(KEY).encode() + b" " + field
        yield b"2 1 10 " + hexed(KEY).encode()[:-2] + field + b" -"
    yield fine
    # a carriage return, NUL and bytes above 127, at the end, within and alone
    for byte in (b"\r", b"\0", b"\x80", b"\xff", b"\xc3\xa9", b"\x0b", b"\x1b"):
        yield fine + byte
        yield fine[:20] + byte + fine[20:]
        yield byte
    yield fine
    # a form that is wrong and numbers that would be refused
    yield line(9, 9, 0, b"", b"") + b"\r"
    yield b"9 9 0 - 0"
    # length: 1,024 bytes are fine, 1,025 are not, nor is any longer line, whatever stands in it
    longest = line(2, 1, 10, KEY, MESSAGE[:492])
    assert len(longest) == LONGEST
    yield longest
    yield line(1, 3, 20, KEY[:8], MESSAGE[:500])
    yield longest[:-1]
    yield line(2, 1, "010", KEY, MESSAGE[:492])
    yield longest + b"0"
    yield longest + b"\r"
    yield longest + b" "
    yield line(2, 1, 10, KEY, MESSAGE[:493])
    yield line(3, 8, 0, b"", MESSAGE[:600])
    yield fine
    yield b"0" * LONGEST
    yield b"0" * (LONGEST + 1)
    yield b"\0" * (2 * LONGEST)
    # the bytes after the 1,024th, or the 1,025th, are no line of their own
    yield b"0" * LONGEST + fine
    yield b"0" * (LONGEST + 1) + fine
    yield fine + b" " * (2 * LONGEST) + fine
    yield fine


def with_answers(lines):
    return [(text, reply(text)) for text in lines]


def known(case):
    fields, answer = case
    return line(*fields), answer


def tagline_cases(rows):
    cases = [known(case) for case in KNOWN]
    cases += published_lines(rows)
    cases.append(known(KNOWN_SHORT))
    cases += with_answers(answered()) + with_answers(refused()) + with_answers(malformed())
    # the last line, which has no newline
    cases += with_answers([line(1, 3, 20, KEY, b"the end")])
    for text, answer in cases:
        if reply(text) != answer:
            raise SystemExit(f"the reference differs: {text!r}: {answer}")
    return cases


def asking():
    """`ask` rows: each question of the one-shot call at both of its edges, and which of several noes comes first."""
    key = "00112233445566778899AABBCCDDEEFF"
    words = {1: 5, 3: 5, 4: 8}
    rows = []

    def ask(algorithm, hash, t, key, message, room, number):
        rows.append(f"ask {algorithm} {hash} {t} {key} {message} {room} {number}")

    for algorithm in (0, 4, 255):
        ask(algorithm, 1, 10, key, "-", 32, 1)
    for hash in (0, 2, 5, 8):
        ask(2, hash, 10, key, "-", 32, 1)
    for algorithm in (1, 3):
        ask(algorithm, 4, 8, key, "-", 32, 2)
    ask(2, 4, 8, key, "-", 32, 0)
    for algorithm in (1, 2, 3):
        for hash in (1, 3, 4):
            if algorithm != 2 and hash == 4:
                continue
            most = (2 if algorithm == 3 else 4) * words[hash]
            low, high = (16, 64) if algorithm == 2 else (1, 16)
            longest = 32 if algorithm == 3 else 1048576
            for size, number in ((low - 1, 3), (low, 0), (high, 0), (high + 1, 3)):
                ask(algorithm, hash, 1, f"5A*{size}" if size else "-", "-", 32, number)
            for t, number in ((0, 4), (1, 0), (most, 0), (most + 1, 4)):
                ask(algorithm, hash, t, key, "-", 32, number)
            ask(algorithm, hash, most, key, f"A5*{longest}", 32, 0)
            ask(algorithm, hash, most, key, f"A5*{longest + 1}", 32, 5)
            ask(algorithm, hash, most, key, "616263", most, 0)
            ask(algorithm, hash, most, key, "616263", most - 1, 6)
    ask(9, 9, 0, "-", "A5*1048577", 0, 1)
    ask(1, 4, 0, "-", "A5*1048577", 0, 2)
    ask(1, 1, 0, "-", "A5*1048577", 0, 3)
    ask(1, 1, 0, key, "A5*1048577", 0, 4)
    ask(1, 1, 1, key, "A5*1048577", 0, 5)
    ask(1, 1, 1, key, "-", 0, 6)
    return [row.encode() for row in rows]


def write(crate, name, data):
    path = ROOT / "crates" / crate / name
    path.parent.mkdir(parents=True, exist_ok=True)
    path.write_bytes(data)
    print(f"{path.relative_to(ROOT)}: {len(data)} bytes")


def main():
    rows = published("published.txt")
    kept = [row for row in rows if covered(row)]
    asks = asking()
    write("vectors", "stdin", b"".join(row + b"\n" for row in kept + asks))
    hashes = sum(row.startswith(b"hash ") for row in kept)
    tags = len(kept) - hashes
    write(
        "vectors",
        "stdout",
        f"hash rows: {hashes} agree, 0 differ\n"
        f"tag rows, by one call: {tags} agree, 0 differ\n"
        f"tag rows, in pieces: {tags} agree, 0 differ\n"
        f"answer numbers: {len(asks)} agree, 0 differ\n".encode(),
    )
    cases = tagline_cases(rows)
    write("tagline", "stdin", b"\n".join(text for text, _ in cases))
    write("tagline", "stdout", "".join(answer + "\n" for _, answer in cases).encode())
    print(f"{len(cases)} lines")


if __name__ == "__main__":
    main()
