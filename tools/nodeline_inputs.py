"""Random scripts for `nodeline`.

A writer puts down one line after the other and asks the reference node for each reply, so it knows which slots have keys,
which frame would be taken and which order is in hand, and goes for the edges of each question, one or several at once.
"""
from reference import ALGORITHMS, EVERYBODY, FORMS, LONGEST_CALL, Node, Script, header, hexed, most
from tagline_inputs import HEXES, NUMBERS, PAIRS, changed, length, near, noise

# Lengths of a body at which header and body come to the edge of a block, or of what algorithm 3 takes.
BODIES = [0, 1, 2, 22, 23, 24, 25, 46, 47, 48, 55, 56, 57, 110, 111, 112, 119, 120, 175, 176, 184, 254, 255]
LAST = 0xFFFFFFFF
# What a take asks of a frame.
FRAME_ASKS = [16, 17, 13, 14, 8, 18, 5, 19, 20]
# How often each kind of line comes up.
WEIGHTS = {
    "install": 5, "clear": 2, "open": 10, "feed": 14, "finish": 4, "judge": 6, "drop": 1, "seal": 10, "take": 22,
    "end_order": 14, "meter": 6, "state": 6, "other_form": 6, "again": 2,
}  # fmt: skip


class Writer:
    """Writes a script: its lines, and the reference's replies."""

    def __init__(self, random):
        self.random, self.script, self.lines, self.replies = random, Script(), [], []
        self.frames, self.orders = [], []
        self.favourites = random.sample(range(8), random.choice([1, 2, 3, 4]))
        self.own_frames = random.choice([0.1, 0.5, 0.9])

    @property
    def node(self):
        return self.script.node

    def say(self, line):
        """Puts down a line. Frames that are sealed and orders that are taken are kept for later."""
        reply = self.script.reply(line)
        self.lines.append(line)
        self.replies.append(reply)
        if reply.startswith("frame "):
            self.frames.append(bytes.fromhex(reply[6:]))
        if reply.startswith("order "):
            self.orders.append([int(field) for field in reply.split()[1:]])

    def call(self, word, *fields):
        self.say(self.line(word, *fields))

    def line(self, word, *fields):
        return b" ".join([word.encode()] + [self.field(field) for field in fields])

    def field(self, value):
        """Bytes in hexadecimal, or a number, at times with leading zeros."""
        if not isinstance(value, int):
            return hexed(value).encode()
        zeros = self.random.choice([2, 3, 9, 10]) if self.random.random() < 0.03 else 1
        return str(value).zfill(zeros).encode()

    def odds(self, chance):
        return self.random.random() < chance

    # What calls are given. A bad one now and then, each for itself, so that a call may fail several questions.
    def slot(self):
        if self.odds(0.04):
            return self.random.choice([8, 9, 16, 255])
        return self.random.choice(self.favourites) if self.odds(0.9) else self.random.randrange(8)

    def lane(self):
        return self.random.choice([4, 5, 255]) if self.odds(0.03) else self.random.randrange(4)

    def key(self):
        low, high = self.node.row.key
        n = self.random.choice([0, low - 1, high + 1, 65, 100]) if self.odds(0.1) else near(self.random, low, high)
        return self.random.randbytes(n)

    def keyed(self, yes=True):
        """A slot that has a key, or that has none, where there is one."""
        slots = [slot for slot in range(8) if (self.node.slots[slot] is not None) == yes]
        return self.random.choice(slots) if slots else self.random.randrange(8)

    def begun(self):
        """A lane, one that has a run mostly."""
        lanes = [lane for lane in range(4) if self.node.lanes[lane]]
        return self.random.choice(lanes) if lanes and self.odds(0.85) else self.lane()

    def sheet(self):
        longest = 24 if self.node.algorithm == 3 and self.odds(0.9) else 255
        fitting = [n for n in BODIES if n <= longest]
        return self.random.randbytes(self.random.choice(fitting) if self.odds(0.6) else self.random.randint(0, longest))

    def level(self):
        return bytes([near(self.random, 0, 100)])

    def bad_level(self):
        return self.random.choice([b"", bytes([101]), bytes([255]), bytes(2), bytes([100, 0]), bytes([128])])

    def address(self, other=0.15):
        """The node's address or everybody's, or by a chance another."""
        own = self.node.address
        others = [own ^ 1, own ^ 0x8000, own + 1, own - 1, own << 8 | own >> 8, 0, 65534, self.random.randrange(65536)]
        return self.random.choice(others) % 65536 if self.odds(other) else self.random.choice([own, own, EVERYBODY])

    # The calls on slots and lanes.
    def install(self):
        self.call("install", self.slot(), self.key())

    def clear(self):
        self.call("clear", self.slot())

    def open(self):
        free = [lane for lane in range(4) if not self.node.lanes[lane]]
        lane = self.random.choice(free) if free and self.odds(0.8) else self.lane()
        self.call("open", lane, self.keyed() if self.odds(0.7) else self.slot())

    def feed(self):
        if self.odds(0.01):
            return self.say(self.long_feed())
        lane = self.begun()
        self.call("feed", lane, self.random.randbytes(self.piece(lane)))

    def piece(self, lane):
        """A length. A short message is filled to its last byte at times, and past it."""
        run = self.node.lanes[lane] if lane < 4 else None
        if self.node.algorithm != 3 or not run:
            return length(self.random, self.random.choice([10, 70, 200]))
        left = 32 - len(run[1])
        return self.random.choice([0, 1, left, left, left + 1, left // 2, self.random.randint(0, 33)])

    def long_feed(self):
        """A line at the edge of the longest."""
        wanted = LONGEST_CALL + self.random.choice([-2, -1, 0, 0, 1, 2])
        front = b"feed " + str(self.begun()).zfill(self.random.choice([1, 2])).encode() + b" "
        return front + self.random.randbytes((wanted - len(front)) // 2).hex().upper().encode()

    def finish(self):
        t = self.node.t
        self.call("finish", self.begun(), self.random.choice([t, t, t, t - 1, t + 1, 0, 31, 32, 33, 65535]))

    def judge(self):
        lane = self.begun()
        run = self.node.lanes[lane] if lane < 4 else None
        tag = self.node.tag(*run) if run else self.random.randbytes(self.node.t)
        self.call("judge", lane, self.random.choice([tag, tag, self.wrong(tag), self.wrong(tag), self.resized(tag)]))

    def wrong(self, tag):
        """Another tag of the same length: one bit turned, the first or the last byte changed, or all of it."""
        at = self.random.choice([0, len(tag) - 1, self.random.randrange(len(tag))])
        turned = bytes([tag[at] ^ 1 << self.random.randrange(8)])
        return self.random.choice([tag[:at] + turned + tag[at + 1 :], self.random.randbytes(len(tag)), tag[::-1]])

    def resized(self, tag):
        return self.random.choice([b"", tag[:-1], tag + b"\0", tag + tag[:1], tag + tag])

    def drop(self):
        self.call("drop", self.begun())

    # Frames.
    def seal(self):
        slot = self.keyed() if self.odds(0.8) else self.slot()
        kind, body = self.random.choice([(0, self.level()), (0, self.level()), (1, self.sheet())])
        if self.odds(0.1):
            body = self.bad_level() if kind == 0 else bytes(self.random.choice([256, 257, 300]))
        if self.odds(0.05):
            kind = self.random.choice([2, 3, 4, 5, 255])
        size = 8 + len(body) + self.node.t
        room = self.random.choice([size, size, size, 295, 65535, size - 1, size + 1, 0, 294])
        self.call("seal", slot, self.address(), kind, body, room)

    def take(self):
        frame = self.sealed() if self.odds(self.own_frames) else self.made()
        self.frames.append(frame)
        self.call("take", self.damaged(frame) if self.odds(0.12) else frame)

    def sealed(self):
        """A frame seen before: sealed here, or taken or refused once."""
        return self.random.choice(self.frames[-self.random.choice([1, 4, 12]) :]) if self.frames else self.made()

    def made(self):
        """A frame made with the slot's key, that at most a few of a take's questions are against."""
        return self.frame_against(self.random.sample(FRAME_ASKS, self.random.choice([0, 0, 0, 1, 2])))

    def frame_against(self, bad):
        slot = self.keyed(8 not in bad)
        kind, body = self.random.choice([(0, self.level()), (1, self.sheet())])
        if 14 in bad:
            kind, body = 0, self.bad_level()
        if 5 in bad:
            kind, body = 1, self.random.randbytes(self.random.choice([24, 25, 26, 255]))
        if 13 in bad:
            kind = self.random.choice([2, 3])
        address = self.address(other=1 if 18 in bad else 0)
        version = self.random.choice([0, 2, 3, 4, 5, 6, 7]) if 17 in bad else 1
        size = (len(body) + self.random.choice([-1, 1, 128])) % 256 if 16 in bad else len(body)
        front = header(slot, kind, size, address, self.number(slot, 19 not in bad), version) + body
        tag = self.tag(self.node.slots[slot] or self.random.randbytes(16), front)
        return front + (self.wrong(tag) if 20 in bad else tag)

    def tag(self, key, front):
        """The tag, where there is one: a short message has at most 32 bytes."""
        return self.node.tag(key, front) if len(front) <= self.node.row.message else bytes(self.node.t)

    def number(self, slot, newer):
        last = self.node.last_taken[slot]
        if not newer:
            return self.random.choice([last, max(last - 1, 0), 0, self.random.randint(0, last)])
        jump = self.random.choice([1, 1, 1, 2, 256, 65536, self.random.randrange(1, 1 << 20)])
        return LAST - self.random.choice([0, 1]) if self.odds(0.003) else min(last + jump, LAST)

    def damaged(self, frame):
        """A frame with a bit turned, a piece cut off or put on, or its parts mixed with another frame's."""
        at = self.random.randrange(len(frame) + 1)
        other = self.random.choice(self.frames) if self.frames else bytes(20)
        turned = bytearray(frame)
        if frame:
            turned[at - 1] ^= 1 << self.random.randrange(8)
        cut = [frame[:at], frame[at:], frame[:7], frame[:8], frame[:-1], b""]
        grown = [frame + b"\0", frame[:at] + other[:1] + frame[at:], frame[:8] + other[8:], other[:8] + frame[8:]]
        return bytes(self.random.choice([turned, turned, turned, *cut, *grown]))

    # Orders.
    def end_order(self):
        """Ends the order in hand, or tries to end another: one field changed, one that is spent, or any."""
        order = list(self.node.order or (self.orders[-1] if self.orders else (0, 1, 0, 0, 8, 1)))
        if self.odds(0.25):
            at = self.random.randrange(6)
            limit = FORMS[b"carry"][at]
            order[at] = self.random.choice([order[at] ^ 1, order[at] + 1, order[at] - 1, order[at] ^ (limit + 1) // 2, limit])
            order[at] %= limit + 1
        elif self.odds(0.05) and self.orders:
            order = self.random.choice(self.orders)
        self.call(self.random.choice(["carry", "carry", "decline"]), *order)

    def meter(self):
        self.say(b"meter")

    def state(self):
        self.say(b"state")

    def again(self):
        """An earlier line once more."""
        self.say(self.random.choice(self.lines[-30:]))

    # Lines of another form.
    def other_form(self):
        line = self.random.choice(self.lines or [b"meter"])[:300]
        odd = [self.past_limit, self.past_limit, self.bad_field, lambda _: noise(self.random), self.second_node, self.spaced]
        self.say(changed(self.random, line) if self.odds(0.3) else self.random.choice(odd)(line))

    def past_limit(self, _):
        """A call, with one of its numbers at its limit or just past it."""
        word, form = self.random.choice([(word, form) for word, form in FORMS.items() if int in map(type, form)])
        fields = [b"00" if limit is bytes else b"0" for limit in form]
        at = self.random.choice([at for at, limit in enumerate(form) if limit is not bytes])
        values = [form[at], form[at] + 1, form[at] + 256, 9999999999, 10000000000, 99999999999]
        fields[at] = str(self.random.choice(values)).zfill(self.random.choice([1, 1, 1, 9, 10, 11])).encode()
        return b" ".join([word] + fields)

    def bad_field(self, line):
        fields = line.split(b" ")
        fields[self.random.randrange(len(fields))] = self.random.choice(NUMBERS + HEXES)
        return b" ".join(fields)

    def second_node(self, _):
        return self.random.choice([b"node 2 4 16 1", b"node 0 0 0 0", b"node 2 4 16", b"node", b"NODE 2 4 16 1"])

    def spaced(self, line):
        parts = line.split(b" ")
        odd = [b" " + line, line + b" ", line + b" 0", line + b" -", b"  ".join(parts), b"\t".join(parts), line + b"\r"]
        return self.random.choice([*odd, line.upper(), line.lower(), parts[0], line[:-1], b"", b"x" * (LONGEST_CALL + 9)])

    def any(self):
        """A line of any kind. An order in hand is mostly ended before long."""
        chosen = self.random.choices(list(WEIGHTS), list(WEIGHTS.values()))[0]
        if chosen in ("take", "end_order") and self.odds(0.7):
            chosen = "end_order" if self.node.order else "take"
        getattr(self, chosen)()


def making(random, number):
    """The fields of a making: each pair of algorithm and hash in turn, and some that are refused."""
    algorithm, hash = PAIRS[number % len(PAIRS)]
    t, address = near(random, 1, most(algorithm, hash)), random.choice([0, 1, 258, 65534, random.randrange(65535)])
    if number % 16 == 15:
        odd = random.sample(range(4), random.choice([1, 1, 2]))
        if 0 in odd:
            algorithm, hash = random.choice([(0, 1), (4, 1), (999, 4), (2, 0), (1, 2), (2, 5), (3, 999), (4, 4)])
        if 1 in odd:
            algorithm, hash = random.choice([1, 3]), 4
        if 2 in odd:
            t = random.choice([0, most(algorithm, hash) + 1 if 0 not in odd else 33, 33, 256, 999])
        if 3 in odd:
            address = EVERYBODY
    return algorithm, hash, t, address


def before(random, writer):
    """Lines before the node is made: nothing is done."""
    calls = [b"meter", b"state", b"clear 0", b"install 0 " + b"00" * 16, b"take 00", b"drop 0", b"", b"node", b"node 2 4"]
    beyond = [b"node 2 4 16 65536", b"node 2 4 1000 1", b"node 1000 4 16 1", b"node 2 1000 16 1", b"node 2 4 16 1 "]
    for _ in range(random.choice([0, 0, 1, 4])):
        writer.say(random.choice(calls + beyond))


def script(random, number, calls):
    """A random script of about so many lines, the number-th of a run."""
    writer = Writer(random)
    before(random, writer)
    writer.call("node", *making(random, number))
    if not isinstance(writer.node, Node):
        return refusing(random, writer, calls)
    for slot in writer.favourites:
        writer.call("install", slot, random.randbytes(16))
    while len(writer.lines) < calls:
        writer.any()
    return writer


def refusing(random, writer, calls):
    """Lines after a refused making: each well-formed call is refused by the same number."""
    while len(writer.lines) < calls:
        word, form = random.choice(list(FORMS.items()))
        fields = [random.randbytes(random.choice([0, 1, 16])) if limit is bytes else near(random, 0, limit) for limit in form]
        line = writer.line(word.decode(), *fields)
        writer.say(changed(random, line) if random.random() < 0.2 else line)
    return writer


def filled(random, algorithm, hash):
    """A lane with the longest message there is, in pieces as long as a line may have, and one byte more."""
    writer = Writer(random)
    writer.call("node", algorithm, hash, 16, 1)
    writer.call("install", 0, random.randbytes(16))
    writer.call("open", 3, 0)
    left, size = ALGORITHMS[algorithm].message, (LONGEST_CALL - 20) // 2
    while left:
        n = min(left, size)
        writer.call("feed", 3, random.randbytes(n))
        left -= n
    for piece in (b"\0", b"", bytes(64)):
        writer.call("feed", 3, piece)
        writer.meter()
    writer.call("judge", 3, writer.node.tag(*writer.node.lanes[3]))
    writer.meter()
    return writer


def limits(random, algorithm, hash):
    """Each number of each call at its limit and past it, short and with leading zeros; on a node made or refused."""
    writer = Writer(random)
    for at, limit in enumerate(FORMS[b"node"]):
        writer.say(at_field(b"node", at, limit + 1))
    writer.call("node", algorithm, hash, 8, 1)
    for word, form in FORMS.items():
        for at, limit in enumerate(form):
            ends = (b"", b"-", b"0G") if limit is bytes else (limit, limit + 1, str(limit).zfill(10), str(limit).zfill(11))
            for value in ends:
                writer.say(at_field(word, at, value))
    return writer


def at_field(word, at, value):
    """A call with a value in one of its fields, and ones in the others."""
    fields = [b"00" if limit is bytes else b"1" for limit in FORMS[word]]
    fields[at] = value if isinstance(value, bytes) else str(value).encode()
    return b" ".join([word] + fields)


def crossed(random, algorithm, hash):
    """Each call with each of its parts right or wrong, so that any two questions are answered no together."""
    writer = Writer(random)
    writer.call("node", algorithm, hash, most(algorithm, hash), 258)
    for slot in (0, 7):
        writer.call("install", slot, random.randbytes(16))
    for calls in (crossed_lanes(writer.node), crossed_seals(writer.node)):
        for word, *fields in calls:
            writer.call(word, *fields)
            writer.meter()
    crossed_frames(writer)
    writer.state()
    return writer


def crossed_lanes(node):
    """Lane 0 is begun before each call, lane 1 is free, and there is no lane 4; slot 2 has no key, and there is no slot 8."""
    past = bytes(33)
    calls = [("install", slot, bytes(n)) for slot in (0, 8) for n in (0, 1, 15, 16, 17, 64, 65)]
    calls += [("clear", slot) for slot in (2, 8)]
    calls += [("open", lane, slot) for lane in (0, 1, 4) for slot in (0, 2, 8)] + [("drop", 1)]
    calls += [("feed", lane, piece) for lane in (0, 1, 4) for piece in (b"", past[:32], past)]
    calls += [("finish", lane, room) for lane in (0, 1, 4) for room in (0, node.t - 1, node.t, 32, 65535)]
    calls += [("judge", lane, bytes(n)) for lane in (0, 1, 4) for n in (0, node.t - 1, node.t, node.t + 1)]
    calls += [("drop", lane) for lane in (0, 1, 4)]
    for call in calls:
        yield "open", 0, 0
        yield call


def crossed_seals(node):
    """Bodies of either kind at their limits, each with room enough and with a byte too little."""
    sheet = bytes(range(256))
    bodies = [b"", b"\0", bytes([100]), bytes([101]), b"\0\0", sheet[:24], sheet[:25], sheet[:255], sheet]
    for slot in (0, 2, 8):
        for kind in (0, 1, 2):
            for body in bodies:
                size = 8 + len(body) + node.t
                yield from (("seal", slot, EVERYBODY, kind, body, room) for room in (size, size - 1))


def crossed_frames(writer):
    """Frames that any two of a take's questions are against, with no order in hand and with one."""
    for held in (False, True):
        if held:
            writer.call("take", writer.frame_against([]))
        for one in FRAME_ASKS:
            for other in FRAME_ASKS:
                for _ in range(4):
                    writer.call("take", writer.frame_against([one, other]))
                    if writer.node.order and not held:
                        writer.call("decline", *writer.node.order)
                writer.meter()


def plain(random, text):
    """A script as it stands."""
    writer = Writer(random)
    for line in text:
        writer.say(line)
    return writer


def corners(random):
    """Scripts at the edges: `crossed`, `limits`, lanes filled to the last byte, makings, long lines, hardly a line."""
    for algorithm, hash in PAIRS:
        yield crossed(random, algorithm, hash)
    for algorithm, hash in [*PAIRS, (1, 4), (3, 4), (9, 9)]:
        yield limits(random, algorithm, hash)
    for at, limit in enumerate(FORMS[b"node"]):
        yield plain(random, [at_field(b"node", at, limit), b"meter", b"state", b"node 2 4 8 1"])
    for front in (b"feed 0 ", b"feed 00 "):
        lines = [front + b"A5" * n for n in range((LONGEST_CALL - 10) // 2, LONGEST_CALL // 2)]
        yield plain(random, [b"node 2 4 8 1", b"install 0 " + b"00" * 16, b"open 0 0", *lines, b"meter"])
    for algorithm, hash in PAIRS:
        if algorithm != 3:
            yield filled(random, algorithm, hash)
    for text in ([], [b""], [b"", b""], [b"node 2 4 16 1"], [b"meter"], [b"\0"], [b"node 2 4 16 1", b""], [b"x" * 200000]):
        yield plain(random, text)
