"""The cases that the program replay reads, as its source lays them out."""
import struct
import corpus, inputs, model

LOAD, DUMP, PAIR = 1, 2, 3
READERS = {"byte": 41, "header": 42, "integer": 43, "byte_string": 44, "left": 45, "offset": 46}
GETTERS = {"root": 11, "kind": 12, "get": 13, "get_symbol": 14, "replace_root": 15, "reading": 16, "wet_weight": 17, "batch_cost": 18}
CREATORS = ["nil", "bool", "fixnum", "symbol", "new_symbol", "array", "hash", "object", "string", "user_defined", "float", "bignum"]
CALLS = dict(GETTERS, replace_class=33, new=34, **{"create_" + name: 21 + i for i, name in enumerate(CREATORS)})

# The most that the program lends: node words, references, bytes, and entries of a list, of buckets and of scratch. The most bytes of
# a case that it reads; longer ones are not stored, and what others lay out is below those.
NODES, REFERENCES, BYTES, NUMBERED = 1000 * model.WIDTH, 4000, 16384, 1000
LONGEST = 4096


def words(numbers):
    return b"".join(struct.pack("<I", n % 2 ** 32) for n in numbers)


def within(sizes, most):
    if any(n > m for n, m in zip(sizes, most)):
        raise SystemExit("a case has more than the program replay lends: %s, %s" % (sizes, most))


def stored(call, head, tables, texts):
    """A case: its length in words, its call, what `head` makes of the bytes at which the texts stand, the tables, and the texts."""
    start = 4 * (2 + len(head([0] * len(texts))) + len(tables))
    places = [start + sum(map(len, texts[:i])) for i in range(len(texts))]
    tail = b"".join(texts)
    tail += bytes(-len(tail) % 4)
    numbers = [call] + head(places) + tables
    return words([1 + len(numbers) + len(tail) // 4] + numbers) + tail


def answered(case, answer):
    """All that load answers: the case's own, or, where its bucket table alone is refused, no counts."""
    if answer != case["answer"]:
        return answer + [0] * 6
    return answer + case["counts"] + [case["used"], case["dump_form"]]


def load(case):
    text, laid = bytes.fromhex(case["in"]), bytes.fromhex(case.get("bytes", ""))
    nodes, references = case.get("nodes", []), case.get("refs", [])
    sizes = case["sizes"] + [case["buckets"]]
    within(sizes, [NODES, REFERENCES, BYTES, NUMBERED, NUMBERED, NUMBERED])

    def head(places):
        counted = sum((model.low_and_high(case[x]) for x in ("copied", "compared", "looked")), [])
        return sizes + [case["limit"], len(text), places[1]] + answered(case, case["answer"]) + answered(
            case, case["hashed"]) + counted + [len(nodes), len(references), len(laid), places[0]]
    return stored(LOAD, head, nodes + references, [laid, text])


def dump(case):
    text, written = bytes.fromhex(case["bytes"]), bytes.fromhex(case.get("written", ""))
    sizes = [len(case["nodes"]), len(case["refs"])]
    within([case["scratch"], case["out"]], [NUMBERED, BYTES])

    def head(places):
        return sizes + [len(text)] + case["counts"] + [case["scratch"], case["out"], case["limit"], places[0]] + case["answer"] + [
            case["length"], len(written), places[1]]
    return stored(DUMP, head, case["nodes"] + case["refs"], [text, written])


def pair(case):
    texts = [bytes.fromhex(case[x]) for x in ("a", "b", "dump_a", "dump_b")]

    def head(places):
        return [case["same"]] + case["answer"] + [n for t, p in zip(texts, places) for n in (len(t), p)]
    return stored(PAIR, head, [], texts)


def arena(case, call, numbers, answer, answers, counts=[0] * 4, members=[], text=b""):
    """A call over an arena. Where no node word and no reference changes, those expected are the ones given, and so of bytes."""
    nodes, references, data = case["nodes"], case["refs"], bytes.fromhex(case["bytes"])
    sizes = [len(nodes), len(references), len(data)]
    after = case.get("nodes_after", nodes) + case.get("refs_after", references)
    data_after = bytes.fromhex(case.get("bytes_after", case["bytes"]))
    first = 25 + model.WIDTH
    members_at = first + len(nodes) + len(references)
    after_at = first if after == nodes + references else members_at + len(members)
    texts = [data, text] + [data_after] * (data_after != data)

    def head(places):
        return sizes + case["counts"] + (numbers + [0, 0])[:2] + [len(members), len(text), members_at, after_at, places[0], places[1],
            places[0] if data_after == data else places[2]] + answer + counts + (answers + [0] * model.WIDTH)[:model.WIDTH]
    return stored(CALLS[call], head, nodes + references + members + after * (after_at != first), texts)


def build(case):
    call, args = case["fn"], case["args"]
    number = next((a for a in args if isinstance(a, int)), 0)
    members = args[1:] if call in ("create_bignum", "replace_class") else next((a for a in args if isinstance(a, list)), [])
    text = bytes.fromhex(next((a for a in args if isinstance(a, str)), ""))
    return arena(case, call, [number], case["answer"], case.get("words", [case.get("handle", 0)]),
                 case.get("counts_after", [0] * 4), members, text)


def weigh(case):
    numbers = [n for x in case["weighing"] for n in model.low_and_high(x)]
    return arena(case, "wet_weight", [case["dry"], case["moisture"]], case["answer"], numbers)


def readings(cases):
    """What each node that is weighed reads as, once for each kind and text."""
    found = {}
    for case in cases:
        for handle in case["dry"], case["moisture"]:
            kind, first, length = (model.words_of(case, handle) + [0] * 3)[:3]
            text = case["bytes"][2 * first:2 * (first + length)] if kind == 9 else first
            found.setdefault((tuple(model.read(case, handle)[0]), kind, text), (case, handle))
    return [reading(*each) for each in found.values()]


def reading(case, handle):
    answer, (kind, number) = model.read(case, handle)
    return arena(case, "reading", [handle], answer, [kind] + (model.low_and_high(model.bits(number)) if kind == 2 else [number, 0]))


def cost(case):
    return arena(case, "batch_cost", [case["recipe"], case["prices"]], case["answer"], model.low_and_high(case["cents"]))


def read(call, text, start, at):
    """A call of a reader that is started somewhere and then moved to an offset."""
    answer, value, length, after, form = getattr(model.Reader(text, at), call)()
    return stored(READERS[call], lambda places: [start, at, len(text), places[0]] + answer + [value, length, after, int(form)], [],
                  [text])


# Inputs for the reader: integers, lengths, headers, and what stands before and after them; offsets past every end.
READ = [bytes.fromhex(text) for text in sum(inputs.INTEGERS.values(), inputs.SIGNS) + [
    "", "04", "0408", "0407", "0400", "0409", "0308", "04FF", "FF08", "0661", "066162", "0661", "06", "07FF", "FA", "FF00", "FF85",
    "010161", "0201000061", "0400000000", "0401000000FF", "04000000", "FC000000", "FD0000", "0201", "FF", "04085B06220761620661"]]
PAST = [2 ** 31 - 1, 2 ** 31, 2 ** 32 - 1]


def reads():
    for text in READ:
        for put in text, b"\4\x08" + text + b"\0":
            for at in list(range(len(put) + 3)) + PAST:
                yield from (read(call, put, (at + 1) % 7, at) for call in READERS)


def sections(found):
    """The sections of the program's input, in their order; what is stored twice, or too long, is left out."""
    weighings = corpus.of("weigh", found)
    return [[case for case in dict.fromkeys(section) if len(case) <= LONGEST] for section in (
        map(load, corpus.of("load", found)), map(dump, corpus.of("dump", found)), map(build, corpus.of("build", found)),
        map(weigh, weighings), readings(weighings), map(cost, corpus.of("cost", found)), map(pair, corpus.of("pairs", found)),
        reads())]
