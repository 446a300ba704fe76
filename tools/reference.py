#!/usr/bin/env python3
"""A second maker of tags, and a second lamp node, to compare with: the MACs of ISO/IEC 9797-2:2011 over hashes of
ISO/IEC 10118-3:2004, and the node of docs/RULES.md.

It is written from the definitions and shares nothing with the proved code. SHA-1, SHA-256, HMAC and, where OpenSSL has
it, plain RIPEMD-160 are Python's own; the rounds with added words, which Python does not have, are written out below.

    tools/reference.py < LINES                        answers each line as the program `tagline` does
    tools/reference.py --script < SCRIPT              answers each line of a script as the program `nodeline` does
    tools/reference.py --check < tools/published.txt  compares itself with published rows, and prints counts
"""
import hashlib
import hmac
import re
import struct
import sys
from functools import lru_cache

MASK = 0xFFFFFFFF

# The five functions of RIPEMD-160, of words named x, y and z. SHA-1 uses some of them. Like a sum, they may leave bits
# above the 32 of a word, which the step's mask takes off.
PARITY = "x ^ y ^ z"
CHOOSE = "x & y | ~x & z"
OR_NOT = "(x | ~y) ^ z"
CHOOSE_BY_LAST = "x & z | y & ~z"
OR_NOT_LAST = "x ^ (y | ~z)"
MAJORITY = "x & y | x & z | y & z"


def over(function, *names):
    """A function's text, over words of other names."""
    return "(" + re.sub("[xyz]", lambda found: names["xyz".index(found[0])], function) + ")"


def rotated(name, n):
    return f"({name} << {n} | {name} >> {32 - n})"


def round_of(*parts):
    """A round, from the lines of its text: written out step by step, since Python is slow at loops."""
    scope = {"unpack": struct.unpack}
    exec("\n ".join(["def round(chain, added, block):", *(line for part in parts for line in part)]), scope)
    return scope["round"]


# RIPEMD-160: two lines of five rows of sixteen steps. A row has a function, a constant, an order of the block's words
# and rotations. The order of a row is the one before it through RHO; the right line begins with the order 9i + 5.
FUNCTIONS = [PARITY, CHOOSE, OR_NOT, CHOOSE_BY_LAST, OR_NOT_LAST]
LEFT = [0x00000000, 0x5A827999, 0x6ED9EBA1, 0x8F1BBCDC, 0xA953FD4E]
RIGHT = [0x50A28BE6, 0x5C4DD124, 0x6D703EF3, 0x7A6D76E9, 0x00000000]
RHO = [7, 4, 13, 1, 10, 6, 15, 3, 12, 0, 9, 5, 2, 14, 11, 8]
# By how much the word i is rotated in each row, on either line.
TURNS = [
    [11, 14, 15, 12, 5, 8, 7, 9, 11, 13, 14, 15, 6, 7, 9, 8],
    [12, 13, 11, 15, 6, 9, 9, 7, 12, 15, 11, 13, 7, 8, 7, 7],
    [13, 15, 14, 11, 7, 7, 6, 8, 13, 14, 13, 12, 5, 5, 6, 9],
    [14, 11, 12, 14, 8, 6, 5, 5, 15, 12, 15, 14, 9, 9, 8, 6],
    [15, 12, 13, 13, 9, 5, 8, 6, 14, 11, 12, 11, 8, 6, 5, 5],
]


def ripemd_line(side, functions, constants, first_added, order):
    """The steps of a line, whose words are named a0 to e0 on the left side and a1 to e1 on the right one."""
    a, b, c, d, e = names = [f"{letter}{side}" for letter in "abcde"]
    yield f"{', '.join(names)} = chain"
    for row in range(5):
        yield f"k = {constants[row]} + added[{(row + first_added) % 4}]"
        for i in order:
            yield f"{a} = ({a} + {over(functions[row], b, c, d)} + w[{i}] + k) & {MASK}"
            yield f"{a} = ({rotated(a, TURNS[row][i])} + {e}) & {MASK}"
            yield f"{c} = {rotated(c, 10)} & {MASK}"
            a, b, c, d, e = e, a, b, c, d
        order = [RHO[i] for i in order]


ripemd_round = round_of(
    ["w = unpack('<16I', block)"],
    ripemd_line(0, FUNCTIONS, LEFT, 0, range(16)),
    ripemd_line(1, FUNCTIONS[::-1], RIGHT, 1, [(9 * i + 5) % 16 for i in range(16)]),
    ["left, right = [a0, b0, c0, d0, e0], [a1, b1, c1, d1, e1]"],
    [f"return [(chain[(i + 1) % 5] + left[(i + 2) % 5] + right[(i + 3) % 5]) & {MASK} for i in range(5)]"],
)


# SHA-1: four quarters of twenty steps.
QUARTERS = [(CHOOSE, 0x5A827999), (PARITY, 0x6ED9EBA1), (MAJORITY, 0x8F1BBCDC), (PARITY, 0xCA62C1D6)]


def sha1_steps():
    a, b, c, d, e = names = list("abcde")
    yield "w = list(unpack('>16I', block))"
    for i in range(16, 80):
        yield f"x = w[{i - 3}] ^ w[{i - 8}] ^ w[{i - 14}] ^ w[{i - 16}]"
        yield f"w.append({rotated('x', 1)} & {MASK})"
    yield f"{', '.join(names)} = chain"
    for i in range(80):
        function, constant = QUARTERS[i // 20]
        if i % 20 == 0:
            yield f"k = {constant} + added[{i // 20}]"
        yield f"{e} = ({rotated(a, 5)} + {over(function, b, c, d)} + {e} + w[{i}] + k) & {MASK}"
        yield f"{b} = {rotated(b, 30)} & {MASK}"
        a, b, c, d, e = e, a, b, c, d
    yield f"return [(x + y) & {MASK} for x, y in zip(chain, ({a}, {b}, {c}, {d}, {e}))]"


sha1_round = round_of(sha1_steps())


NONE = [0, 0, 0, 0]
FIRST = [0x67452301, 0xEFCDAB89, 0x98BADCFE, 0x10325476, 0xC3D2E1F0]


class Hash:
    """A hash: its chain words, the order of bytes in a word ('<' low byte first), its plain code by Python's way of
    naming one, and where it has added words its round."""

    def __init__(self, words, order, plain, round=None):
        self.words, self.order, self.plain, self.round = words, order, plain, round

    def chained(self, chain, added, data):
        """The rounds over whole blocks."""
        for at in range(0, len(data), 64):
            chain = self.round(chain, added, data[at : at + 64])
        return chain

    def padded(self, message):
        zeros = bytes((55 - len(message)) % 64)
        return message + b"\x80" + zeros + struct.pack(self.order + "Q", 8 * len(message))

    def code(self, chain):
        return struct.pack(f"{self.order}{len(chain)}I", *chain)

    def by_rounds(self, message):
        """The plain code, by the round that is written out here."""
        return self.code(self.chained(FIRST, NONE, self.padded(message)))


class Ripemd160:
    """RIPEMD-160 in the shape of hashlib, for Python's HMAC."""

    digest_size, block_size = 20, 64

    def __init__(self, data=b""):
        self.data = data

    def update(self, data):
        self.data += data

    def copy(self):
        return Ripemd160(self.data)

    def digest(self):
        return HASHES[1].by_rounds(self.data)


def plain_ripemd(data=b""):
    """OpenSSL's RIPEMD-160, or the one above where OpenSSL is built without it."""
    return hashlib.new("ripemd160", data) if "ripemd160" in hashlib.algorithms_available else Ripemd160(data)


HASHES = {
    1: Hash(5, "<", plain_ripemd, ripemd_round),
    3: Hash(5, ">", hashlib.sha1, sha1_round),
    4: Hash(8, ">", hashlib.sha256),
}


# MDx-MAC and the algorithm for short strings.
def xor(a, b):
    return bytes(x ^ y for x, y in zip(a, b))


@lru_cache
def strings(hash):
    """T0, T1 and T2, sixteen bytes each."""
    text = b"abcdefghijklmnopqrstuvwxyzABCDEFGHIJKLMNOPQRSTUVWXYZ0123456789"
    return [hash.code(hash.chained(FIRST, NONE, b"%d%d" % (i, i) + text))[:16] for i in range(3)]


@lru_cache(1024)
def key_parts(hash, key):
    """K0, the first chain; K1, the added words; K2, sixteen bytes."""
    T, K = strings(hash), (16 * key)[:16]
    U = [2 * (T[i] + T[(i + 1) % 3] + T[(i + 2) % 3]) for i in range(3)]
    chains = [hash.chained(FIRST, NONE, K + U[i] + K) for i in range(3)]
    return chains[0], chains[1][:4], hash.code(chains[2])[:16]


def mdx_mac(hash, key, message):
    K0, K1, K2 = key_parts(hash, key)
    last = K2 + b"".join(xor(K2, T) for T in strings(hash))
    return hash.code(hash.chained(K0, K1, hash.padded(message) + last))


def plain_hmac(hash, key, message):
    return hmac.new(key, message, hash.plain).digest()


def short_mac(hash, key, message):
    K0, K1, K2 = key_parts(hash, key)
    bits = (8 * len(message)).to_bytes(16, "big")
    return hash.code(hash.chained(K0, K1, K2 + message.ljust(32, b"\0") + xor(K2, bits)))


class Algorithm:
    """An algorithm: whether it needs added words, the lengths of its keys, the most bytes of a tag for each chain
    word, the longest message, and what makes the longest tag."""

    def __init__(self, added, key, tag, message, make):
        self.added, self.key, self.tag, self.message, self.make = added, key, tag, message, make


ALGORITHMS = {
    1: Algorithm(True, (1, 16), 4, 1048576, mdx_mac),
    2: Algorithm(False, (16, 64), 4, 1048576, plain_hmac),
    3: Algorithm(True, (1, 16), 2, 32, short_mac),
}
ROOM = 32


def most(algorithm, hash):
    """The longest tag."""
    return ALGORITHMS[algorithm].tag * HASHES[hash].words


def ask(algorithm, hash, t, key, message, room=ROOM):
    """The number of the first question that is answered no, by lengths of key and message, or 0."""
    if algorithm not in ALGORITHMS or hash not in HASHES:
        return 1
    a, h = ALGORITHMS[algorithm], HASHES[hash]
    if a.added and h.round is None:
        return 2
    if not a.key[0] <= key <= a.key[1]:
        return 3
    if not 1 <= t <= a.tag * h.words:
        return 4
    if message > a.message:
        return 5
    return 6 if t > room else 0


def tag(algorithm, hash, key, message, t):
    """The tag, where no question is answered no."""
    return ALGORITHMS[algorithm].make(HASHES[hash], key, message)[:t]


# How often the round runs: for a key, for n bytes that are on the way, and for n bytes and their tag.
def key_rounds(algorithm):
    return 2 if algorithm == 2 else 6


def held_rounds(algorithm, n):
    return 0 if algorithm == 3 else n // 64


def whole_rounds(algorithm, n):
    return 1 if algorithm == 3 else (n + 8) // 64 + 2


def rounds(algorithm, n):
    """How often the round runs for a message of n bytes, the key's share included."""
    return key_rounds(algorithm) + whole_rounds(algorithm, n)


# The lines of tagline.
LONGEST = 1024
FIELDS = re.compile(rb"([0-9]{1,3}) ([0-9]{1,3}) ([0-9]{1,3}) (-|(?:[0-9A-F]{2})+) (-|(?:[0-9A-F]{2})+)")


def unhex(field):
    return b"" if field == b"-" else bytes.fromhex(field.decode())


def hexed(data):
    return data.hex().upper() or "-"


def reply(line):
    """The answer to a line, without newlines."""
    fields = FIELDS.fullmatch(line)
    if len(line) > LONGEST or not fields:
        return "?"
    algorithm, hash, t = (int(field) for field in fields.group(1, 2, 3))
    key, message = (unhex(field) for field in fields.group(4, 5))
    refusal = ask(algorithm, hash, t, len(key), len(message))
    if refusal:
        return f"no {refusal}"
    return f"{tag(algorithm, hash, key, message, t).hex().upper()} {rounds(algorithm, len(message))}"


def lines_of(data):
    """The lines of a text: a last one without a newline counts, and nothing after the last newline is no line."""
    lines = data.split(b"\n")
    return lines if lines[-1] else lines[:-1]


# The node.
EVERYBODY = 65535


class Refused(Exception):
    """A question that is answered no, by its number."""


def need(yes, number):
    if not yes:
        raise Refused(number)


def header(slot, kind, length, address, number, version=1):
    """The eight bytes of a header: version 3 bits, slot 3, kind 2, length 8, address 16, number 32."""
    return struct.pack(">BBHI", version << 5 | slot << 2 | kind, length, address, number)


def fits(kind, body):
    """Whether a body is of its kind's length and range: a level is a byte of at most 100, a sheet has 255 at most."""
    return len(body) == 1 and body[0] <= 100 if kind == 0 else len(body) <= 255


class Node:
    """A lamp node. A slot has a key or None; a lane has a key and the bytes so far, or None. A call answers or raises
    its refusal, the first question of its row that is answered no; its work is done below its questions."""

    def __init__(self, algorithm, hash, t, address):
        need(algorithm in ALGORITHMS and hash in HASHES, 1)
        self.row, self.hash = ALGORITHMS[algorithm], HASHES[hash]
        need(self.hash.round or not self.row.added, 2)
        need(1 <= t <= self.row.tag * self.hash.words, 4)
        need(address < EVERYBODY, 23)
        self.algorithm, self.t, self.address = algorithm, t, address
        self.slots, self.last_taken, self.last_sealed = [None] * 8, [0] * 8, [0] * 8
        self.lanes = [None] * 4
        self.level, self.taken, self.carried, self.declined, self.order = 100, 0, 0, 0, None
        self.meter = 0

    def tag(self, key, message):
        return self.row.make(self.hash, key, bytes(message))[: self.t]

    def install(self, slot, key):
        need(slot < 8, 7)
        need(self.row.key[0] <= len(key) <= self.row.key[1], 3)
        self.slots[slot] = key
        self.meter += key_rounds(self.algorithm)

    def clear(self, slot):
        need(slot < 8, 7)
        need(self.slots[slot] is not None, 8)
        self.slots[slot] = None

    def open(self, lane, slot):
        need(lane < 4, 9)
        need(slot < 8, 7)
        need(self.slots[slot] is not None, 8)
        need(self.lanes[lane] is None, 10)
        self.lanes[lane] = self.slots[slot], bytearray()

    def begun(self, lane):
        """The key and bytes of a lane, where it is one and is not free."""
        need(lane < 4, 9)
        need(self.lanes[lane] is not None, 11)
        return self.lanes[lane]

    def feed(self, lane, piece):
        _, message = self.begun(lane)
        need(len(message) + len(piece) <= self.row.message, 5)
        self.meter -= held_rounds(self.algorithm, len(message))
        message += piece
        self.meter += held_rounds(self.algorithm, len(message))

    def end(self, lane):
        """The tag of a lane, which is free then."""
        key, message = self.lanes[lane]
        self.lanes[lane] = None
        self.meter += whole_rounds(self.algorithm, len(message)) - held_rounds(self.algorithm, len(message))
        return self.tag(key, message)

    def finish(self, lane, room):
        self.begun(lane)
        need(room >= self.t, 6)
        return self.end(lane)

    def judge(self, lane, tag):
        self.begun(lane)
        need(len(tag) == self.t, 12)
        return self.end(lane) == tag

    def drop(self, lane):
        self.begun(lane)
        self.lanes[lane] = None

    def seal(self, slot, address, kind, body, room):
        need(slot < 8, 7)
        need(self.slots[slot] is not None, 8)
        need(kind < 2, 13)
        need(fits(kind, body), 14)
        need(8 + len(body) <= self.row.message, 5)
        need(self.last_sealed[slot] < 0xFFFFFFFF, 15)
        need(8 + len(body) + self.t <= room, 6)
        self.last_sealed[slot] += 1
        front = header(slot, kind, len(body), address, self.last_sealed[slot]) + body
        self.meter += whole_rounds(self.algorithm, len(front))
        return front + self.tag(self.slots[slot], front)

    def take(self, frame):
        need(self.order is None, 21)
        need(len(frame) >= 8, 16)
        first, length, address, number = struct.unpack(">BBHI", frame[:8])
        version, slot, kind = first >> 5, first >> 2 & 7, first & 3
        need(len(frame) == 8 + length + self.t, 16)
        front, body, tag = frame[: 8 + length], frame[8 : 8 + length], frame[8 + length :]
        need(version == 1, 17)
        need(kind < 2, 13)
        need(fits(kind, body), 14)
        need(self.slots[slot] is not None, 8)
        need(address in (self.address, EVERYBODY), 18)
        need(len(front) <= self.row.message, 5)
        need(number > self.last_taken[slot], 19)
        self.meter += whole_rounds(self.algorithm, len(front))
        need(self.tag(self.slots[slot], front) == tag, 20)
        self.last_taken[slot] = number
        self.taken += 1
        self.order = slot, number, kind, 0 if kind else body[0], 8, length
        return self.order

    def carry(self, *order):
        need(order == self.order, 22)
        self.order = None
        self.carried += 1
        if order[2] == 0:
            self.level = order[3]

    def decline(self, *order):
        need(order == self.order, 22)
        self.order = None
        self.declined += 1


# The scripts of nodeline: a line is a word and fields. A field is bytes, or a number with its limit.
LONGEST_CALL, DIGITS, BYTES = 65536, re.compile(rb"[0-9]{1,10}"), re.compile(rb"-|(?:[0-9A-F]{2})+")
TAG_PLACE, FRAME_PLACE = 32, 295
ORDER = (255, 0xFFFFFFFF, 255, 255, 65535, 65535)
FORMS = {
    b"node": (999, 999, 999, 65535),
    b"install": (255, bytes),
    b"clear": (255,),
    b"open": (255, 255),
    b"feed": (255, bytes),
    b"finish": (255, 65535),
    b"judge": (255, bytes),
    b"drop": (255,),
    b"seal": (255, 65535, 255, bytes, 65535),
    b"take": (bytes,),
    b"carry": ORDER,
    b"decline": ORDER,
    b"meter": (),
    b"state": (),
}


def field_of(text, limit):
    """What a field says, or None where it is of another form."""
    if limit is bytes:
        return unhex(text) if BYTES.fullmatch(text) else None
    return int(text) if DIGITS.fullmatch(text) and int(text) <= limit else None


def call_of(line):
    """A line's word and what its fields say, or None where it is of another form."""
    word, *texts = line.split(b" ")
    form = FORMS.get(word)
    if len(line) > LONGEST_CALL or form is None or len(texts) != len(form):
        return None
    fields = [field_of(text, limit) for text, limit in zip(texts, form)]
    return None if None in fields else (word.decode(), fields)


class Script:
    """Answers the lines of a script. The node is None before the first well-formed `node` line, and the number of the
    refusal where the making was refused."""

    def __init__(self):
        self.node = None

    def reply(self, line):
        """The answer to a line, without newlines."""
        call = call_of(line)
        if call is None or (call[0] == "node") != (self.node is None):
            return "?"
        try:
            return self.answer(*call)
        except Refused as refused:
            if call[0] == "node":
                self.node = refused.args[0]
            return f"no {refused.args[0]}"

    def answer(self, word, fields):
        if word == "node":
            self.node = Node(*fields)
            return "ok"
        need(isinstance(self.node, Node), self.node)
        return getattr(self, word, self.plain)(word, fields)

    def plain(self, word, fields):
        getattr(self.node, word)(*fields)
        return "ok"

    def finish(self, word, fields):
        lane, room = fields
        return f"tag {hexed(self.node.finish(lane, min(room, TAG_PLACE)))}"

    def judge(self, word, fields):
        return "right" if self.node.judge(*fields) else "wrong"

    def seal(self, word, fields):
        *command, room = fields
        return f"frame {hexed(self.node.seal(*command, min(room, FRAME_PLACE)))}"

    def take(self, word, fields):
        return "order " + " ".join(str(number) for number in self.node.take(*fields))

    def meter(self, word, fields):
        return str(self.node.meter)

    def state(self, word, fields):
        node = self.node
        return f"{node.level} {node.taken} {node.carried} {node.declined}"


# Published rows: `hash H MESSAGE CODE` and `tag A H T KEY MESSAGE TAG`.
def message_of(field):
    """A message, in hexadecimal, `-`, or as a byte and how often it stands."""
    byte, star, times = field.partition(b"*")
    return unhex(byte) * int(times) if star else unhex(field)


def rows_of(data):
    return [line for line in lines_of(data) if not line.startswith(b"#")]


def agrees(row):
    """Whether a published row has what is worked out here; None where there is no such hash or the tag is refused."""
    kind, *fields = row.split()
    if kind == b"hash":
        hash, message, code = HASHES.get(int(fields[0])), message_of(fields[1]), unhex(fields[2])
        if hash is None:
            return None
        return hash.plain(message).digest() == code and (hash.round is None or hash.by_rounds(message) == code)
    algorithm, hash, t = (int(field) for field in fields[:3])
    key, message, expected = unhex(fields[3]), message_of(fields[4]), unhex(fields[5])
    if ask(algorithm, hash, t, len(key), len(message)):
        return None
    return tag(algorithm, hash, key, message, t) == expected


def check(rows):
    counts = {}
    for row in rows:
        agreed = agrees(row)
        counts.setdefault(row.split()[0].decode(), {True: 0, False: 0, None: 0})[agreed] += 1
        if agreed is False:
            print("differs:", row.decode())
    for kind, count in counts.items():
        print(f"{kind} rows: {count[True]} agree, {count[False]} differ, {count[None]} refused")
    return not any(count[False] for count in counts.values())


def main():
    mode = sys.argv[1:]
    if mode not in ([], ["--script"], ["--check"]):
        sys.exit(__doc__)
    if mode == ["--check"]:
        sys.exit(0 if check(rows_of(sys.stdin.buffer.read())) else 1)
    answer = Script().reply if mode else reply
    for line in sys.stdin.buffer:
        print(answer(line[:-1] if line.endswith(b"\n") else line))


if __name__ == "__main__":
    main()
