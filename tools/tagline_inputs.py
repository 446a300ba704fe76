"""Random lines for `tagline`: good ones, ones refused at the edges of each limit, and ones of another form."""
from reference import ALGORITHMS, LONGEST, hexed, most

PAIRS = [(1, 1), (1, 3), (2, 1), (2, 3), (2, 4), (3, 1), (3, 3)]
LENGTHS = [0, 1, 8, 31, 32, 33, 54, 55, 56, 57, 63, 64, 65, 118, 119, 120, 127, 128, 129, 183, 184, 192]
ODD_BYTES = [b for b in range(256) if b != 0x0A]
NUMBERS = [b"", b"-", b"+1", b"-1", b"0001", b"1000", b"1.", b"0x1", b"A", b"1_0", b"\xd9\xa1", b" 1", b"9999999999"]
HEXES = [b"", b"0", b"--", b"-0", b"00-", b"0a", b"aA", b"0G", b"G0", b"0/", b":0", b"@0", b"0`", b"0x00", b"00 ", b"000"]


def near(random, low, high):
    """A number from low to high, often one of the edges."""
    return random.choice([low, low + 1, high - 1, high]) if random.random() < 0.4 else random.randint(low, high)


def length(random, longest):
    """A message length, often at the edge of a block."""
    fitting = [n for n in LENGTHS if n <= longest]
    return random.choice(fitting) if random.random() < 0.5 else random.randint(0, longest)


def number(random, value):
    """A number as a field, at times with leading zeros."""
    return str(value).zfill(random.choice([1, 1, 1, 1, 2, 3])).encode()


def line(random, algorithm, hash, t, key, message):
    """A line for a key and a message of the lengths given."""
    numbers = [number(random, value) for value in (algorithm, hash, t)]
    return b" ".join(numbers + [hexed(random.randbytes(n)).encode() for n in (key, message)])


def parts(random):
    """Numbers and lengths that get a tag. A key and a message of 471 bytes always fit on a line."""
    algorithm, hash = random.choice(PAIRS)
    row = ALGORITHMS[algorithm]
    t, key = near(random, 1, most(algorithm, hash)), near(random, *row.key)
    return [algorithm, hash, t, key, length(random, min(row.message, random.choice([130, 130, 440])))]


def good(random):
    return line(random, *parts(random))


def refused(random):
    """A line with one to three of its parts past a limit."""
    asked = parts(random)
    row, longest = ALGORITHMS[asked[0]], most(*asked[:2])
    beyond = {
        0: [0, 4, 5, 10, 100, 999],
        1: [0, 2, 4, 5, 8, 10, 13, 999],
        2: [0, longest + 1, longest + 2, 33, 64, 255, 256, 999],
        3: [0, row.key[0] - 1, row.key[1] + 1, 65, 66, 100],
        4: [33, 34, 64],
    }
    for part in random.sample(sorted(beyond), random.choice([1, 1, 1, 2, 3])):
        asked[part] = random.choice(beyond[part])
    return line(random, *asked)


def changed(random, text):
    """A line with one byte taken away, put in, replaced or put in twice."""
    at = random.randrange(len(text) + 1)
    byte = bytes([random.choice(ODD_BYTES if random.random() < 0.5 else b" 0123456789ABCDEFabcdef-\t\r+")])
    rest = random.choice([text[at:], text[at + 1 :]])
    return text[:at] + random.choice([b"", byte, byte, byte + byte]) + rest


def bad_field(random):
    fields = good(random).split(b" ")
    at = random.randrange(5)
    fields[at] = random.choice(NUMBERS if at < 3 else HEXES)
    return b" ".join(fields)


def bad_fields(random):
    """A line with a field too few or too many, two in the other order, or with another space between."""
    fields = good(random).split(b" ")
    way = random.randrange(4)
    if way == 0:
        del fields[random.randrange(5)]
    elif way == 1:
        fields.insert(random.randrange(6), random.choice(fields + [b"-", b"", b"1"]))
    elif way == 2:
        random.shuffle(fields)
    return (b" " if way < 3 else random.choice([b"  ", b"\t", b",", b"\0", b"\xa0"])).join(fields)


def long(random):
    """A line at the edge of the longest, or far past it, of the right form or not."""
    wanted = random.choice([LONGEST - 1, LONGEST, LONGEST, LONGEST + 1, LONGEST + 1, LONGEST + 2, 1500, 2048, 4096, 20000])
    front = line(random, *parts(random)[:4], 0)[:-1]
    text = front + random.randbytes((wanted - len(front)) // 2).hex().upper().encode()
    if len(text) < wanted:
        text = text.replace(b" ", b" 0", 1) if random.random() < 0.7 else text + b"0"
    return text


def noise(random):
    """Odd bytes, and long runs of one byte."""
    if random.random() < 0.3:
        return bytes([random.choice(ODD_BYTES)]) * random.choice([1, 2, 100, LONGEST, LONGEST + 1, 3000])
    return bytes(random.choices(ODD_BYTES, k=random.choice([0, 1, 2, 10, 40, 300])))


def any_line(random):
    way = random.random()
    if way < 0.4:
        return good(random)
    if way < 0.65:
        return refused(random)
    if way < 0.75:
        return changed(random, good(random))
    return random.choice([bad_field, bad_field, bad_fields, long, noise])(random)


def batch(random, count):
    """An input of so many lines: the last one may have no newline, but is not empty then."""
    lines = [any_line(random) for _ in range(count)]
    text = b"\n".join(lines)
    return text + b"\n" if not lines[-1] or random.random() < 0.5 else text


def corners():
    """Whole inputs at the edges of what a line is."""
    fine = b"2 4 8 00112233445566778899AABBCCDDEEFF 616263"
    long = b"2 4 8 00112233445566778899AABBCCDDEEFF " + b"61" * 1000
    for text in (b"", fine, long, b"0" * LONGEST, b"0" * (LONGEST + 1), b"\0", b"\r", b" ", b"\xff" * 70000):
        for end in (b"", b"\n", b"\n\n", b"\r\n", b"\n" + fine, b"\n\n\n" + fine + b"\n"):
            yield text + end
