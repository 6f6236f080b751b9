"""What the documents say of inputs and arenas, worked out without the library: beside it the tools hold what a corpus says."""
import os, re, struct

TOP = os.path.dirname(os.path.dirname(os.path.abspath(__file__)))

# The words of a node, as the crates have them.
WIDTH = int(re.search(r"WIDTH: usize = (\d+)", open(os.path.join(TOP, "crates", "definition", "src", "lib.rt")).read())[1])

# Of the integers with data bytes that dump writes: the last data byte, by the first byte.
LAST = {0x01: range(0x7B, 0x100), 0x02: range(0x01, 0x100), 0x03: range(0x01, 0x100), 0x04: range(0x01, 0x80),
        0xFF: range(0x00, 0x85), 0xFE: range(0x00, 0xFF), 0xFD: range(0x00, 0xFF), 0xFC: range(0x80, 0xFF)}


def compared(a, b):
    """How many bytes of two names of one length a search compares: up to and including the first difference."""
    return next((i + 1 for i in range(len(a)) if a[i] != b[i]), len(a))


class Walk:
    """A walk over an input that load accepts, which knows document 02's reasons for no, and nothing of dump or tables: `form` is
    whether it met none of them, `used` where it ended, `copied` and `compared` what the measuring load counts, `read` the names
    read in full and `names` those that are new, in their order."""

    def __init__(self, text):
        self.text, self.names, self.read = text, [], []
        self.form, self.used, self.copied, self.compared = text[1] == 8, 2, 0, 0
        self.value()

    def take(self, n=1):
        part = self.text[self.used:self.used + n]
        self.used += n
        return part

    def meet(self, written):
        """Something that dump writes, or doesn't."""
        self.form = self.form and written

    def integer(self):
        size = self.take()[0]
        data = self.take(size if size <= 4 else 256 - size if size >= 0xFC else 0)
        self.meet(data[-1] in LAST[size] if data else size not in (0x05, 0xFB))
        if data:
            return int.from_bytes(data.ljust(4, b"\xFF" if size > 4 else b"\x00"), "little", signed=True)
        return 0 if size == 0 else size - 5 if size < 0x80 else size - 251

    def string(self):
        """A byte string that is kept."""
        self.copied += len(self.take(self.integer()))

    def search(self, name):
        """Is the name known? Those of its length are compared with it, in the order in which they were first met."""
        for known in self.names:
            if len(known) == len(name):
                self.compared += compared(name, known)
                if known == name:
                    return True
        return False

    def name(self, kind):
        if kind == b";":
            self.integer()
            return
        name = self.take(self.integer())
        self.read.append(name)
        known = self.search(name)
        self.meet(not known)
        if not known:
            self.names.append(name)
            self.copied += len(name)

    def variables(self):
        for _ in range(self.integer()):
            self.name(self.take())
            self.value()

    def value(self):
        kind = self.take()
        if kind in (b"i", b"@"):
            self.integer()
        elif kind in (b":", b";"):
            self.name(kind)
        elif kind in (b'"', b"f", b"u"):
            if kind == b"u":
                self.name(self.take())
            self.string()
        elif kind == b"l":
            sign = self.take()
            units = self.take(2 * self.integer())
            self.meet(units[-2:] != b"\0\0" and (sign == b"+" or any(units)))
        elif kind == b"[":
            for _ in range(self.integer()):
                self.value()
        elif kind in (b"{", b"}"):
            for _ in range(2 * self.integer() + (kind == b"}")):
                self.value()
        elif kind == b"o":
            self.name(self.take())
            self.variables()
        elif kind == b"C":
            self.name(self.take())
            self.value()
        elif kind == b"I":
            self.meet(self.text[self.used:self.used + 1] not in (b"I", b"@"))
            self.value()
            self.variables()


class Reader:
    """What stands at an offset of an input: each call gives the answer, a value or a start, a length, the offset after it, and whether
    dump writes the bytes read. A refused call leaves the offset."""

    def __init__(self, text, at):
        self.text, self.at = text, at

    def refused(self, *answer):
        return list(answer), 0, 0, self.at, False

    def byte(self):
        if self.at >= len(self.text):
            return self.refused(4, 0, 0)
        return [0, 0, 0], self.text[self.at], 0, self.at + 1, True

    def header(self):
        both = self.text[self.at:self.at + 2]
        if len(both) < 2:
            return self.refused(4, 0, 0)
        if both[0] != 4 or both[1] > 8:
            return self.refused(3, *both)
        return [0, 0, 0], 0, 0, self.at + 2, both[1] == 8

    def integer(self):
        """Its value has 32 bits."""
        size = self.text[self.at] if self.at < len(self.text) else 0
        number = size if size <= 4 else 256 - size if size >= 0xFC else 0
        data = self.text[self.at + 1:self.at + 1 + number]
        if self.at >= len(self.text) or len(data) < number:
            return self.refused(4, 0, 0)
        value = int.from_bytes(data.ljust(4, b"\xFF" if size > 4 else b"\0"), "little")
        if size == 0x04 and value >= 2 ** 31 or size == 0xFC and value < 2 ** 31:
            return self.refused(19, size, 0)
        if not data:
            value = 0 if size == 0 else (size - 5 if size < 0x80 else size - 251) % 2 ** 32
        form = data[-1] in LAST[size] if data else size not in (0x05, 0xFB)
        return [0, 0, 0], value, 0, self.at + 1 + number, form

    def byte_string(self):
        answer, length, _, start, form = self.integer()
        if answer[0]:
            return self.refused(*answer)
        if length >= 2 ** 31:
            return self.refused(6, length - 2 ** 32, 0)
        if len(self.text) - start < length:
            return self.refused(4, 0, 0)
        return [0, 0, 0], start, length, start + length, form

    def left(self):
        return [0, 0, 0], max(len(self.text) - self.at, 0), 0, self.at, False

    def offset(self):
        return [0, 0, 0], self.at, 0, self.at, False


def fnv_1a(name):
    """The hash of 2.8, 32 bits."""
    found = 2166136261
    for byte in name:
        found = (found ^ byte) * 16777619 % 2 ** 32
    return found


def looked(names, size):
    """How many of a bucket table's words are looked at in searches for these names, one after the other."""
    table, total = [None] * size, 0
    for name in names:
        at, total = fnv_1a(name) % size, total + 1
        while table[at] not in (None, name):
            at, total = (at + 1) % size, total + 1
        table[at] = name
    return total


def reading(case, handle):
    """What a node of the arena reads as, after 2.5: 0 for no number, 1 for a whole one, 2 for a double, and the number."""
    kind, first, length = words_of(case, handle)[:3]
    if kind == 2:
        return 1, first - (first >> 31 << 32)
    text = bytes.fromhex(case["bytes"])[first:first + length]
    found = re.fullmatch(rb"(-?)([0-9]+)(?:\.([0-9]+))?", text) if kind == 9 else None
    whole, part = (found[2], found[3] or b"") if found else (b"", b"")
    if not 1 <= len(whole + part) <= 15:
        return 0, 0
    size = int(whole + part) / 10 ** len(part)
    return 2, -size if found[1] else size


def bits(x):
    """A double's 64 bits."""
    return struct.unpack("<Q", struct.pack("<d", x))[0]


def read(case, handle):
    """What reading answers of a handle: three numbers, and what the node reads as, no number where it is refused."""
    if case["answer"][0] in (1, 2):
        return case["answer"], (0, 0)
    if handle >= case["counts"][0]:
        return [13, handle, 0], (0, 0)
    return [0, 0, 0], reading(case, handle)


def words_of(arena, handle):
    """A node's words."""
    return arena["nodes"][WIDTH * handle:WIDTH * (handle + 1)]


def pairs_of(arena, handle):
    """A hash's keys and values, pair by pair, as written."""
    start, count = words_of(arena, handle)[3:5]
    listed = arena["refs"][start:start + 2 * count]
    return list(zip(listed[::2], listed[1::2]))


def not_a_recipe(arena, handle, most):
    """The first faulty node of what should be a hash of amounts under names, after 2.7, or None: the hash for its kind or for
    more pairs than `most`, then each pair, key before value, superseded ones too."""
    if words_of(arena, handle)[0] != 5 or len(pairs_of(arena, handle)) > most:
        return handle
    for key, value in pairs_of(arena, handle):
        if words_of(arena, key)[0] != 3:
            return key
        kind, amount = words_of(arena, value)[:2]
        if kind != 2 or amount >> 31:
            return value


def surviving(arena, handle):
    """By name the key's node and the amount: a later pair supersedes an earlier one, and stands at its own place."""
    text, found = bytes.fromhex(arena["bytes"]), {}
    for key, value in pairs_of(arena, handle):
        start, length = words_of(arena, key)[1:3]
        name = text[start:start + length]
        found.pop(name, None)
        found[name] = key, words_of(arena, value)[1]
    return found


def batch_cost(arena, recipe, prices):
    """The answer of batch_cost over an arena that is well formed, after 2.7: three numbers, and the cents."""
    for handle in (recipe, prices):
        if handle >= arena["counts"][0]:
            return [13, handle, 0], 0
    for handle, most in ((recipe, 512), (prices, float("inf"))):
        wrong = not_a_recipe(arena, handle, most)
        if wrong is not None:
            return [20, wrong, 0], 0
    at, total = surviving(arena, prices), 0
    for name, (key, kilograms) in surviving(arena, recipe).items():
        if name not in at:
            return [21, key, 0], 0
        cents, rest = divmod(kilograms * at[name][1], 1000)
        total += cents + (rest >= 500)
    return [0, 0, 0], total


class Hash:
    """A hash by its pairs, which may repeat a key, and a list of its default, if it has one."""

    def __init__(self, *pairs, default=[]):
        self.pairs, self.default = pairs, default


class Float(bytes):
    """A Float's text."""


class Big(int):
    """A number from zero up that is written as a Bignum."""


class Classed:
    """A hash, a list or bytes in a class of a name."""

    def __init__(self, name, value):
        self.name, self.value = name, value


class Saved:
    """A value as bytes, and the arena that load fills from these: a node for a value where its kind byte stands, list space where
    its count stands. None, bools and ints are Ruby's, a str is a symbol, bytes are a string. What is met again is linked."""

    def __init__(self, value):
        self.text, self.nodes, self.refs, self.bytes = bytes.fromhex("0408"), [0] * WIDTH, [], b""
        self.names, self.objects = {}, {}
        self.root = self.value(value)

    def arena(self):
        counts = [len(self.nodes) // WIDTH, len(self.refs), len(self.bytes), self.root]
        return {"nodes": self.nodes, "refs": self.refs, "bytes": self.bytes.hex(), "counts": counts}

    def integer(self, n):
        if -123 <= n <= 122:
            self.text += bytes([(n + 5 if n > 0 else n - 5 if n < 0 else 0) % 256])
        else:
            size = next(k for k in (1, 2, 3, 4) if -256 ** k <= n < 256 ** k)
            self.text += bytes([(size if n > 0 else -size) % 256]) + (n % 256 ** size).to_bytes(size, "little")

    def node(self, *words):
        self.nodes += list(words) + [0] * (WIDTH - len(words))
        return len(self.nodes) // WIDTH - 1

    def string(self, kind, text):
        self.integer(len(text))
        self.text += text
        self.bytes += text
        return self.node(kind, len(self.bytes) - len(text), len(text))

    def members(self, handle, values, number):
        """A container's count and members, filled in as they come."""
        self.integer(number)
        start = len(self.refs)
        self.refs += [0] * len(values)
        self.nodes[WIDTH * handle + 3:WIDTH * handle + 5] = start, number
        for i, v in enumerate(values):
            self.refs[start + i] = self.value(v)

    def symbol(self, name):
        if name in self.names:
            place, handle = self.names[name]
            self.text += b";"
            self.integer(place)
            return handle
        self.text += b":"
        handle = self.string(3, name.encode())
        self.names[name] = len(self.names), handle
        return handle

    def value(self, v):
        if v is None or v is True or v is False:
            self.text += {None: b"0", True: b"T", False: b"F"}[v]
            return self.node(*([0] if v is None else [1, int(v)]))
        if isinstance(v, str):
            return self.symbol(v)
        if isinstance(v, int) and not isinstance(v, Big):
            self.text += b"i"
            self.integer(v)
            return self.node(2, v % 2 ** 32)
        name, v = (v.name, v.value) if isinstance(v, Classed) else (None, v)
        if id(v) in self.objects:
            place, handle = self.objects[id(v)]
            self.text += b"@"
            self.integer(place)
            return handle
        self.text += b"C" if name is not None else b""
        word = self.symbol(name) + 1 if name is not None else 0
        self.objects[id(v)] = len(self.objects), len(self.nodes) // WIDTH
        handle = self.object(v)
        self.nodes[WIDTH * handle + 7] = word
        return handle

    def object(self, v):
        """What has an object number, at its first meeting."""
        if isinstance(v, Big):
            units = (v.bit_length() + 15) // 16
            self.text += b"l+"
            self.integer(units)
            self.text += v.to_bytes(2 * units, "little")
            return self.node(10, *low_and_high(v))
        if isinstance(v, bytes):
            self.text += b"f" if isinstance(v, Float) else b'"'
            return self.string(9 if isinstance(v, Float) else 7, v)
        if isinstance(v, list):
            self.text += b"["
            handle = self.node(4)
            self.members(handle, v, len(v))
            return handle
        self.text += b"}" if v.default else b"{"
        handle = self.node(5)
        self.members(handle, [x for pair in v.pairs for x in pair], len(v.pairs))
        for x in v.default:
            self.nodes[WIDTH * handle + 6] = self.value(x) + 1
        return handle


def low_and_high(n):
    """A number of 64 bits as two words."""
    return [n % 2 ** 32, n >> 32]


def yes_or_no(form):
    """What the program form prints for an accepted input."""
    return "yes\n" if form else "no\n"


def row(numbers):
    """A row of the listing: columns of 11."""
    return "".join("%11d" % n for n in numbers) + "\n"


def listing(first, nodes, references, text):
    """What the program list prints: the counts and the bytes used, each node's number and words, zeros
    left out at their end, the references, the bytes."""
    rows = [first] + [[n] + ws + [0] * (WIDTH - len(ws)) for n, ws in enumerate(nodes)]
    rows += [[r] for r in references] + [[b] for b in text]
    return "".join(row(r) for r in rows)
