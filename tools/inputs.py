"""The inputs that the programs are run on, each with what must be written: chosen of a corpus, and by hand from the documents."""
import os
import corpus, model
from model import Big, Classed, Float, Hash, Saved, row, yes_or_no

YES, NO = True, False


def sample(name):
    return open(os.path.join(model.TOP, "samples", name + ".bin"), "rb").read()


def samples():
    """The sample files, each as dump writes it: the fewest bytes in integers, links for what was met before, no trailing byte."""
    names = sorted(os.listdir(os.path.join(model.TOP, "samples")))
    return [sample(name[:-4]) for name in names if name.endswith(".bin")]


# ---- list

# Of samples the counts and bytes used; each node's words, up to the last that is not zero; the references; the bytes.
LISTED = {}
LISTED["recipe"] = (
    [15, 12, 30, 1, 61],
    [[], [6, 0, 0, 0, 3, 2], [3, 0, 6], [3, 6, 7], [2, 17], [3, 13, 6], [4, 0, 0, 6, 2], [4, 0, 0, 8, 2], [3, 19, 3], [2, 620],
     [4, 0, 0, 10, 2], [3, 22, 3], [2, 90], [3, 25, 5], [1, 0]],
    [3, 4, 5, 6, 13, 14, 7, 10, 8, 9, 11, 12],
    b"Recipe" b"@number" b"@steps" b"add" b"mix" b"@done")
LISTED["setpoints"] = (
    [22, 24, 62, 1, 119],
    [[], [5, 0, 0, 0, 6], [3, 0, 4], [7, 4, 8, 12, 1, 0, 1], [3, 12, 1], [1, 1], [3, 13, 5], [9, 18, 4], [3, 22, 4], [9, 26, 4],
     [3, 30, 5], [4, 0, 0, 14, 2], [4, 0, 0, 16, 3], [3, 35, 4], [2, 612], [4, 0, 0, 19, 3], [2, 155], [3, 39, 5], [9, 44, 3],
     [3, 47, 4], [7, 51, 11, 22, 1, 0, 1], [1, 1]],
    [2, 3, 6, 7, 8, 9, 10, 11, 17, 18, 19, 20, 4, 5, 12, 15, 13, 14, 9, 6, 16, 7, 4, 21],
    b"name" b"mortar 7" b"E" b"water" b"1.25" b"damp" b"0.35" b"steps" b"sand" b"speed" b"1e2" b"note" b"stir slowly")
LISTED["counter"] = (
    [21, 19, 48, 1, 116],
    [[], [5, 0, 0, 0, 4], [3, 0, 4], [7, 4, 8, 8, 1, 0, 1], [3, 12, 1], [1, 1], [3, 13, 7], [2, 48213], [3, 20, 9],
     [10, 4142307704, 1], [3, 29, 4], [4, 0, 0, 10, 3], [4, 0, 0, 13, 2], [3, 33, 4], [10, 936143204, 1], [4, 0, 0, 15, 2],
     [3, 37, 6], [10, 2615555250], [4, 0, 0, 17, 2], [3, 43, 5], [2, 590609250]],
    [2, 3, 6, 7, 8, 9, 10, 11, 4, 5, 12, 15, 18, 13, 14, 16, 17, 19, 20],
    b"name" b"mortar 7" b"E" b"batches" b"kilograms" b"used" b"sand" b"cement" b"water")

LISTED["classes"] = (
    [21, 17, 53, 1, 106],
    [[], [5, 0, 0, 0, 3], [3, 0, 4], [3, 4, 5], [7, 9, 8, 6, 1, 0, 1, 4], [3, 17, 1], [1, 1], [3, 18, 3], [3, 21, 14],
     [4, 0, 0, 8, 2, 0, 0, 9], [4, 0, 0, 10, 2], [3, 35, 4], [2, 620], [4, 0, 0, 12, 2], [3, 39, 6], [2, 310], [3, 45, 3],
     [4, 0, 0, 14, 1, 0, 0, 9], [4, 0, 0, 15, 2], [3, 48, 5], [2, 155]],
    [2, 4, 7, 9, 16, 17, 5, 6, 10, 13, 11, 12, 14, 15, 18, 19, 20],
    b"name" b"Label" b"mortar 7" b"E" b"dry" b"IngredientList" b"sand" b"cement" b"wet" b"water")

EXAMPLE = "04085B07697F3A0661", model.listing([4, 2, 1, 1, 9], [[], [4, 0, 0, 0, 2], [2, 122], [3, 0, 1]], [2, 3], b"a")
NIL = "040830", model.listing([2, 0, 0, 1, 3], [[], []], [], b"")


def listed(found):
    """Of document 01's cases its example, the first two inputs of each answer with a short listing, and the input of one byte more
    than the longest; of the others those with a short listing. Besides, the longest input, a detail of eleven characters, and
    samples."""
    count = {}
    for case in found["load"]:
        if "list" not in case:
            continue
        wanted = case["in"] == EXAMPLE[0] or len(case["in"]) > 2 * 16384
        wanted = wanted or corpus.request(case) != "base"
        if not wanted:
            number = case["answer"][0]
            count[number] = count.get(number, 0) + 1
        if wanted or count[number] <= 2:
            yield bytes.fromhex(case["in"]), case["list"]
    yield bytes.fromhex(NIL[0]).ljust(16384, b"x"), NIL[1]
    yield bytes.fromhex("04085BFC00000080"), row([6, -2147483648, 0])
    for name, shown in LISTED.items():
        yield sample(name), model.listing(*shown)


# ---- list_all: recipes one after the other

# A recipe, or what is left of the input, and what is printed for it.
TRUE = "040854", model.listing([2, 0, 0, 1, 3], [[], [1, 1]], [], b"")
FLOAT = "0408660631", model.listing([2, 0, 1, 1, 5], [[], [9, 0, 1]], [], b"1")
BIGNUM = "04086C2D0800000000FF7F", model.listing([2, 0, 0, 1, 11], [[], [10, 0, 32767, 0, 1]], [], b"")
CLASSED = "0408433A06612200", model.listing([3, 0, 1, 2, 8], [[], [3, 0, 1], [7, 1, 0, 0, 0, 0, 0, 2]], [], b"a")
UNREAD = TRUE[0], ""

TOGETHER = [
    [],
    [EXAMPLE],
    [NIL, EXAMPLE, TRUE],
    [NIL, ("04085B07697F44", row([5, 68, 0])), UNREAD],
    [NIL, ("6162", row([3, 97, 98]))],
    [TRUE, ("04", row([4, 0, 0]))],
    [FLOAT, EXAMPLE, FLOAT, ("040849660000", row([10, 0, 0])), UNREAD],
    [BIGNUM, FLOAT, BIGNUM, ("04086C2B0A", row([16, 5, 0])), UNREAD],
    [TRUE, ("0408690400000080", row([19, 4, 0])), UNREAD],
    [CLASSED, BIGNUM, CLASSED, ("0408433A06613000", row([22, 48, 0])), UNREAD],
]
TOO_MANY = bytes.fromhex(NIL[0]) * 5461 + bytes.fromhex("0408"), row([12, 8, 0])


def all_listed(found):
    for parts in TOGETHER:
        yield bytes.fromhex("".join(text for text, _ in parts)), "".join(shown for _, shown in parts)
    yield TOO_MANY


# ---- form: integers at the ends of the ranges that dump writes, each place of an integer with the forms of 0 and with size bytes of
# the other sign, and what else decides

INTEGERS = {
    YES: ["00", "06", "7F", "80", "FA", "017B", "01FF", "020001", "02FF01", "03000001", "03FFFFFF", "0400000001", "04FFFFFF7F",
          "FF84", "FF00", "FEFFFE", "FE0000", "FDFFFFFE", "FD000000", "FCFFFFFFFE", "FC00000080"],
    NO: ["05", "FB", "0100", "017A", "027B00", "02FF00", "03FFFF00", "04FFFFFF00", "FFFF", "FF85", "FE84FF", "FE00FF",
         "FD0000FF", "FC000000FF"]}

# What stands before and after an integer that is 0: the lengths, the counts, the indices.
PLACES = [("3A", ""), ("22", ""), ("753A0661", ""), ("66", ""), ("5B", ""), ("7B", ""), ("7D", "30"), ("6F3A0661", ""),
          ("492200", ""), ("49753A066100", ""), ("5B073A06613B", ""), ("6F3A0661063B", "30"), ("5B0640", ""), ("6C2B", "")]
ZEROS = ["00", "05", "FB", "0100", "0400000000"]

# Integers whose size byte is of the other sign: refused as a Fixnum and at those places, before what a place asks.
SIGNS = ["0400000080", "04FFFFFFFF", "FC00000000", "FCFFFFFF7F"]

DECIDED = [
    # a name again, by `:` and by `;`, at a value's place and at a name's
    (NO, "5B073A06613A0661"), (NO, "5B073A003A00"), (NO, "5B083A06613A06623A0661"), (YES, "5B083A06613A06623B00"),
    (NO, "6F3A0661063A066130"), (NO, "5B076F3A0661006F3A066100"), (YES, "5B076F3A0661006F3B0000"),
    (NO, "5B07753A066100753A066100"), (YES, "5B07753A066100753B0000"), (NO, "492200073A0661303A066130"),
    (YES, "492200073A0661303B0030"),
    # a string, and a Float, of a name's bytes
    (YES, "5B083A0661220661660661"), (YES, "5B082206616606613A0661"),
    # `I` on what takes variables, on `I`, on `@`, also where it changes nothing; the last wants a level more to be dumped
    (YES, "492200063A06614000"), (YES, "49753A066100063A066230"), (NO, "494922000000"), (NO, "4949753A0661000000"),
    (NO, "5B07220049400600"), (NO, "5B07753A06610049400600"), (NO, "5B074922000049400600"),
    (NO, "5B07" + "5B06" * 62 + "220049404400"),
    # a Bignum's highest unit: 0, or only its high byte 0; a minus on zero; a count of 1 unit in another form
    (YES, "6C2B060100"), (YES, "6C2D060001"), (NO, "6C2B060000"), (NO, "6C2B0701000000"), (YES, "6C2B0700000100"),
    (NO, "6C2D08FFFFFFFF0000"), (YES, "6C2D08000000000100"), (NO, "6C2B090100000000000000"), (YES, "6C2D09FFFFFFFFFFFFFF7F"),
    (NO, "6C2D00"), (NO, "6C2D060000"), (NO, "6C2B01010100"),
    # a class; its name again, by `:` and by `;`; of a string with variables, and of one that gets them by a link
    (YES, "433A06615B00"), (YES, "433A0661220661"), (YES, "433A06617B00"), (YES, "433A06617D0030"),
    (NO, "5B07433A06615B00433A06615B00"), (YES, "5B07433A06615B00433B005B00"), (NO, "5B073A0661433A06615B00"),
    (YES, "5B07433A06615B004006"), (YES, "49433A0661220000"), (NO, "5B07433A0661220049400600"), (NO, "433A0101615B00"),
    # links, and equal values that are not linked
    (YES, "5B0722004006"), (YES, "5B0722002200"), (YES, "5B0766004006"), (YES, "5B07660631660631"),
    (YES, "5B076C2B004006"), (YES, "5B076C2B0601006C2B060100"),
    # what follows the bytes used
    (YES, "30FF"), (YES, "69060408"), (NO, "690500")]
VERSIONS = [(YES if minor == 8 else NO, "04%02X30" % minor) for minor in range(9)]


def formed_by_hand():
    for form, texts in INTEGERS.items():
        yield from ((form, "040869" + text) for text in texts)
    for before, after in PLACES:
        yield from ((zero == ZEROS[0], "0408" + before + zero + after) for zero in ZEROS)
    yield from ((form, "0408" + text) for form, text in DECIDED)
    yield from VERSIONS


def wrong_signs():
    for before in ["69"] + [before for before, _ in PLACES]:
        yield from ((row([19, int(text[:2], 16), 0]), "0408" + before + text) for text in SIGNS)


def formed(found):
    """Besides: the samples, the shortest input of each refusal, short accepted inputs, and an input of the longest length."""
    yield from ((text, yes_or_no(YES)) for text in samples())
    yield from ((bytes.fromhex(text), yes_or_no(form)) for form, text in formed_by_hand())
    yield from ((bytes.fromhex(text), shown) for shown, text in wrong_signs())
    yield from ((bytes.fromhex(case["in"]), row(case["answer"])) for case in corpus.refusals(found))
    yield from ((bytes.fromhex(case["in"]), yes_or_no(case["dump_form"])) for case in corpus.short_listings(found))
    yield bytes.fromhex("040830").ljust(16384, b"x"), yes_or_no(YES)


# ---- redump

# Document 01's bytes with known outcomes: the input, and its dump or the refusal's number and details.
KNOWN = [("5B064000", "5B064000"), ("5B0722066149400600", "5B0749220661004006"), ("5B073A06613A0661", "5B073A06613B00"),
         ("4000", (8, 0, 0)), ("4930", (4, 0, 0)), ("493000", (10, 0, 0)), ("5BFA", (6, -1, 0)),
         # the integers, whose dumps have the fewest data bytes
         ("6905", "6900"), ("69FB", "6900"), ("697F", "697F"), ("6980", "6980"), ("69017B", "69017B"), ("69FF84", "69FF84"),
         ("69FF00", "69FF00"), ("69FEFFFE", "69FEFFFE"), ("6904FFFFFFFF", (19, 4, 0)), ("69FCFFFFFF7F", (19, 252, 0)),
         # document 02 refuses the last two, and none of these
         ("69FCFFFFFFFF", "69FA"), ("6904FFFFFF7F", "6904FFFFFF7F"), ("69FC00000080", "69FC00000080"), ("690400000000", "6900")]

# Document 02's Float: any bytes, none too; kept as they are, so that equal ones stay two; `I` on it, directly or by a link; its
# kind byte where a name is wanted, in a byte string and as a length.
FLOATS = [("6600", "6600"), ("6606FF", "6606FF"), ("6609312E3235", "6609312E3235"), ("66040100000031", "660631"),
          ("66FC0100000031", (19, 252, 0)), ("66FA", (6, -1, 0)), ("6606", (4, 0, 0)), ("496600", (4, 0, 0)),
          ("49660000", (10, 0, 0)), ("4966000630", (9, 48, 0)), ("5B07660049400600", (10, 0, 0)),
          ("5B086606316606314006", "5B086606316606314006"), ("5B07660101314006", "5B076606314006"), ("6F66", (9, 102, 0)),
          ("220666", "220666"), ("2266" + "61" * 97, "2266" + "61" * 97)]

# Document 02's Bignum: the fewest units, zero without a sign; kept as it is however small, and equal ones stay two; `I` on it,
# directly or by a link; its kind byte where a name is wanted; a wrong sign, a count below 0, over 4 or without its units, 2^63.
BIGNUMS = [("6C2B00", "6C2B00"), ("6C2D00", "6C2B00"), ("6C2D060000", "6C2B00"), ("6C2B060100", "6C2B060100"),
           ("6C2B0701000000", "6C2B060100"), ("6C2B0700000100", "6C2B0700000100"), ("6C2D090201000000000000", "6C2D060201"),
           ("6C2D09FFFFFFFFFFFFFF7F", "6C2D09FFFFFFFFFFFFFF7F"), ("6C2B04010000000100", "6C2B060100"),
           ("5B086C2B0601006C2B0601004006", "5B086C2B0601006C2B0601004006"), ("5B076C2B07010000004006", "5B076C2B0601004006"),
           ("496C2B00", (4, 0, 0)), ("496C2B0000", (10, 0, 0)), ("5B076C2B0049400600", (10, 0, 0)), ("6F6C", (9, 108, 0)),
           ("6C", (4, 0, 0)), ("6C2AFA", (15, 42, 0)), ("6C2B", (4, 0, 0)), ("6C2BFC010000000100", (19, 252, 0)),
           ("6C2BFA", (6, -1, 0)), ("6C2B0A", (16, 5, 0)), ("6C2B0901000000000000", (4, 0, 0)),
           ("6C2B090000000000000080", (16, 4, 0)), ("6C2D090000000000000080", (16, 4, 0))]

# Document 02's class: before what takes one; its name new, again and by a link; `I` before it, and by a link to what has one; after
# the name any other byte, a link, `I` and `C` too; `I` on what takes no variables; its kind byte where a name is wanted; a name that
# is none, or missing; on the deepest level, where its value's members have none.
CLASSES = [("433A06615B0630", "433A06615B0630"), ("433A0661220662", "433A0661220662"), ("433A06617B063030", "433A06617B063030"),
           ("433A06617D0030", "433A06617D0030"), ("433A005B00", "433A005B00"), ("433A0101615B00", "433A06615B00"),
           ("5B07433A06615B00433A06615B00", "5B07433A06615B00433B005B00"), ("5B07433A06615B004006", "5B07433A06615B004006"),
           ("49433A06612200063B0030", "49433A06612200063B0030"), ("5B07433A0661220049400600", "5B0749433A06612200004006"),
           ("49433A06615B00", (4, 0, 0)), ("49433A06615B0000", (10, 0, 0)), ("5B07433A06617B0049400600", (10, 0, 0)),
           ("433A066130", (22, 48, 0)), ("433A066140", (22, 64, 0)), ("433A066143", (22, 67, 0)), ("433A066149", (22, 73, 0)),
           ("433A066166", (22, 102, 0)), ("433A0661FF", (22, 255, 0)), ("6F43", (9, 67, 0)), ("43", (4, 0, 0)),
           ("4322", (9, 34, 0)), ("433A0661", (4, 0, 0)), ("433B00", (7, 0, 0)), ("43FA", (9, 250, 0)), ("433AFA", (6, -1, 0)),
           ("5B06" * 63 + "433A06615B00", "5B06" * 63 + "433A06615B00"), ("5B06" * 63 + "433A06615B0630", (11, 64, 0)),
           ("5B06" * 63 + "49433A0661220000", (11, 64, 0))]

# One string twice, and two strings with the same bytes: both inputs are as dump writes them.
ALIKE = ["5B072206614006", "5B07220661220661"]

# The string at level 64 gets a variable list by a link, so its dump has `I` at level 64 and the string at 65: refused by dump,
# 11. Nil 999 times in an array: with node 0 and the array one node more than there is space for. A name 1,001 times: the last
# one isn't taken by the symbol list.
NOT_DUMPED = [("5B07" + "5B06" * 62 + "22004940" + "%02X" % (63 + 5) + "00", (11, 64, 0)),
           ("5B02E703" + "30" * 999, (12, 1, 0)), ("5B02E903" + "3A0661" * 1001, (12, 4, 0))]


def outcomes():
    for text, outcome in KNOWN + FLOATS + BIGNUMS + CLASSES + [(t, t) for t in ALIKE] + NOT_DUMPED:
        yield "0408" + text, "0408" + outcome if isinstance(outcome, str) else outcome
    yield "040030", "040830"
    yield "040930", (3, 4, 9)


def redumped_pairs(found):
    """For each kind at the root the first pair of different inputs that hold the same graph, and the short pairs that hold
    different graphs though they differ in one byte."""
    roots = set()
    for case in corpus.of("pairs", found):
        a, b = case["a"], case["b"]
        differ = sum(x != y for x, y in zip(bytes.fromhex(a), bytes.fromhex(b)))
        first = case["same"] and a != b and case["dump_a"][4:6] not in roots
        if first:
            roots.add(case["dump_a"][4:6])
        if first or not case["same"] and len(a) == len(b) < 60 and differ == 1:
            yield a, case["dump_a"]
            yield b, case["dump_b"]


def redumped(found):
    """Besides: the samples, the shortest input of each refusal, and document 01's files that are accepted since."""
    yield from ((text, text) for text in samples())
    since = ((case["in"], case["in"]) for case in corpus.listings(found) if corpus.accepted_since(case) and case["dump_form"])
    for part in outcomes(), redumped_pairs(found), ((case["in"], case["answer"]) for case in corpus.refusals(found)), since:
        for text, outcome in part:
            yield bytes.fromhex(text), bytes.fromhex(outcome) if isinstance(outcome, str) else row(outcome)


# ---- cost

# Kilograms, and cents per tonne: the line of lime has an exact half cent, that of sulfate a fraction below it.
BATCH = [Hash(("sand", 590), ("soda", 180), ("lime", 45), ("dolomite", 150), ("feldspar", 60), ("sulfate", 5), ("cullet", 250)),
         Hash(("cullet", 6140), ("sand", 4500), ("soda", 28000), ("dolomite", 5200), ("lime", 3900), ("feldspar", 14550),
              ("sulfate", 21450), ("borax", 61000))]

GREATEST = 2 ** 31 - 1
LINE, AT = Hash(("a", 500)), Hash(("a", 1))
SELF = []
SELF += [SELF, SELF]


def of_one_name(n):
    return Hash(*[("a", i) for i in range(n)])


def of_names(n, amount):
    return Hash(*[("n%d" % i, amount) for i in range(n)])


LINES = [(0, 0), (1, 1), (499, 1), (500, 1), (501, 1), (999, 1), (1000, 1), (1499, 1), (1500, 1), (2500, 1), (500, 3), (250, 2),
         (249, 2), (GREATEST, 0), (0, GREATEST), (GREATEST, 1), (GREATEST, 46), (GREATEST, 47), (GREATEST, GREATEST)]
WRONG = [None, True, -1, -2 ** 31, "b", b"a", b"", Float(b"500"), Big(500), Big(2 ** 31), [], Hash()]

VALUES = [BATCH] + [[Hash(("a", kilograms)), Hash(("a", cents))] for kilograms, cents in LINES] + [
    # sums line by line; nothing to pay for; prices that aren't asked for
    [Hash(("a", 500), ("b", 500)), Hash(("a", 1), ("b", 1))], [Hash(), Hash()], [Hash(), AT], [LINE, Hash(("b", 7), ("a", 1))],
    # a later pair supersedes an earlier one
    [Hash(("a", 1500), ("a", 500)), AT], [Hash(("a", 500), ("a", 1500)), AT], [LINE, Hash(("a", 9000), ("a", 1))],
    [Hash(("a", 500), ("b", 500), ("a", 1500)), Hash(("a", 1), ("b", 1), ("b", 3))],
    # no price, for the first pair that survives: by its own key, before later ones
    [LINE, Hash()], [Hash(("a", 0)), Hash()], [Hash(("a", 500), ("b", 500)), AT], [Hash(("b", 500), ("a", 500)), AT],
    [Hash(("a", 1), ("b", 1), ("a", 2)), Hash()], [Hash(("a", 1), ("b", 1), ("a", 2)), Hash(("b", 1))],
    # names by their bytes
    [LINE, Hash(("A", 1), ("a\0", 1), ("", 1), ("aa", 1))], [Hash(("", 500)), Hash(("", 1))], [Hash(("a\0", 500)), AT],
    # the recipe before the prices, each pair before the next, key before value, superseded ones too; all before the price
    [Hash(("a", -1)), Hash((None, 1))], [Hash((None, -1)), AT], [Hash(("a", -1), (None, 1)), AT], [Hash(("a", -1), ("a", 1)), AT],
    [LINE, Hash(("b", 1), ("b", -1))], [LINE, Hash(("a", -1), ("a", 1))], [LINE, Hash((1, -1))],
    # one hash for both; defaults play no part
    [LINE] * 2, [Hash(("a", -1))] * 2, [Hash(("a", 500), default=[None]), Hash(("b", 1), default=[1])],
    [Hash(("a", 500), default=[LINE]), Hash(default=[-1])], [Hash(("a", 500), default=[-1]), Hash(("a", 1), default=[b""])],
    # classes play no part
    Classed("a", [Classed("b", LINE), Classed("c", AT)]), [Hash(("a", Classed("a", b""))), AT], [Classed("a", LINE)] * 2,
    # the number of pairs as written, of the recipe alone, before the pairs
    [of_one_name(511), AT], [of_one_name(512), AT], [of_one_name(513), AT], [AT, of_one_name(513)], [of_one_name(513)] * 2,
    [Hash(*[(None, 1)] * 300 + [("a", 1)] * 213), AT], [of_names(300, 500), AT],
    # the most names that the tables take, the most cents with them, and one name more
    [of_names(498, 1500)] * 2, [of_names(498, GREATEST)] * 2, [of_names(499, 1)] * 2,
    # another shape
    None, True, 500, "a", b"a", Float(b"1"), Big(1), LINE, [], [LINE], [LINE, AT, AT], [LINE, None], [None, AT], [LINE, [AT]],
    [[LINE], AT], [LINE, "a"], ["a", AT], [[LINE, AT], [LINE, AT]], [LINE, AT, None], SELF] + [
    [Hash((x, 500)), AT] for x in WRONG if x != "b"] + [[LINE, Hash((x, 1))] for x in WRONG if x != "b"] + [
    [Hash(("a", x)), AT] for x in WRONG] + [[LINE, Hash(("a", x))] for x in WRONG]


def costs(arena):
    """What is printed for an arena: the cents, or a refusal, 20 with the root where that is no array of two hashes."""
    root = arena["counts"][3]
    kind, _, _, start, number = model.words_of(arena, root)[:5]
    two = arena["refs"][start:start + 2]
    answer, cents = [20, root, 0], 0
    if kind == 4 and number == 2 and all(model.words_of(arena, h)[0] == 5 for h in two):
        answer, cents = model.batch_cost(arena, *two)
    return row(answer if answer[0] else [cents])


def costed(found):
    """Values of which each shows one thing, those of more than 1,000 nodes without space; the other samples, the shortest input of
    each refusal, short accepted inputs, and inputs of the longest length and past it."""
    for saved in map(Saved, VALUES):
        arena = saved.arena()
        yield saved.text, costs(arena) if arena["counts"][0] <= 1000 else row([12, 1, 0])
    batch = Saved(BATCH)
    yield from ((text, row([20, 1, 0])) for text in samples() if text != batch.text)
    yield from ((bytes.fromhex(case["in"]), row(case["answer"])) for case in corpus.refusals(found))
    yield from ((bytes.fromhex(case["in"]), costs(case)) for case in corpus.short_listings(found))
    yield batch.text.ljust(16384, b"x"), costs(batch.arena())
    yield batch.text.ljust(16385, b"x"), row([12, 8, 0])


# The programs by their numbers.
PROGRAMS = [(1, listed), (2, all_listed), (3, redumped), (4, formed), (5, costed)]

# What each is run on by itself.
OWN = {"list": (sample("recipe"), model.listing(*LISTED["recipe"])),
       "list_all": (bytes.fromhex(NIL[0] + EXAMPLE[0] + TRUE[0]), NIL[1] + EXAMPLE[1] + TRUE[1]),
       "redump": (bytes.fromhex("0408" + KNOWN[1][0]), bytes.fromhex("0408" + KNOWN[1][1])),
       "form": (bytes.fromhex(EXAMPLE[0]), yes_or_no(YES)), "cost": (Saved(BATCH).text, costs(Saved(BATCH).arena()))}
