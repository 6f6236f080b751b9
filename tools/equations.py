"""Turns cases of a corpus into closed equations about the definitions, and has the checker compute them.

Each case becomes equations in a crate of its file, above a copy of crates/definition; `rt check` computes them.
Cases of which only the lengths are given, and those of the program, are left out."""
import os, re, shutil, subprocess
import corpus, model

DEFINITION = os.path.join(model.TOP, "crates", "definition")
MODULES = ["Run", "Refused", "Integer", "Node", "Magnitude", "Arena", "Buckets", "State", "Load", "LoadMeasured", "LoadHashed", "Dump",
           "Build", "Weight", "Cost"]
PER_MODULE = 40

# what the definitions use of IEEE 754
IEEE = ["size", "round", "units", "odd", "neg", "sum", "add", "sub", "div", "lt", "of_int", "to_bits"]

# refusals by number: the constructor and how many of the two details it holds
REFUSALS = {1: ("BadTables", 1), 3: ("InvalidVersion", 2), 4: ("ShortInput", 0), 5: ("InvalidKind", 1),
            7: ("MissingSymbol", 1), 8: ("MissingObject", 1), 9: ("NotASymbol", 1), 10: ("NotAnObject", 0),
            11: ("TooDeep", 1), 12: ("NoSpace", 1), 13: ("BadHandle", 1), 14: ("WrongKind", 1), 15: ("BadSign", 1),
            16: ("TooBig", 1), 17: ("NotAWeight", 1), 18: ("BadMoisture", 0), 19: ("WrongSign", 1),
            20: ("NotARecipe", 1), 21: ("NoPrice", 1), 22: ("NotWrappable", 1)}


def numbers(ns):
    return "(" + " ∷ ".join([str(n) for n in ns] + ["[]"]) + ")"


def integer(n):
    return "(pos %d)" % n if n >= 0 else "(negsuc %d)" % (-1 - n)


def unhex(h):
    return list(bytes.fromhex(h))


def answer(a):
    number, first, second = a
    if number == 0:
        return "Accepted"
    if number == 2:
        return "(Refused (BadArena %s))" % ("BadCounts" if first < 0 else "(Node %d)" % first)
    if number == 6:
        return "(Refused (NegativeCount %d))" % (first % 2 ** 32)
    name, held = REFUSALS[number]
    return "(Refused %s)" % (name if held == 0 else "(%s)" % " ".join([name] + [str(x) for x in (first, second)[:held]]))


def counts(c):
    return "(A.counts_of %d %d %d %d)" % tuple(c)


def filled(n, by):
    return "(replicate %d %d)" % (n, by)


def padded(ns, size):
    return "(%s ++ replicate %d 0)" % (numbers(ns), size - len(ns))


def lists(xs):
    return "(L.lists %s)" % " ".join(xs)


def left_of(case, number, junk):
    """What a load that answers this number leaves of the tables and lists."""
    sizes = case["sizes"]
    if number == 1:
        return lists(junk)
    if number != 0:
        return lists(filled(n, 0) for n in sizes)
    return lists([padded(case["nodes"], sizes[0]), padded(case["refs"], sizes[1]), padded(unhex(case["bytes"]), sizes[2]),
                  filled(sizes[3], 0), filled(sizes[4], 0)])


def load(case):
    """The measuring load's call and the hashed load's: the rest of their answers, and what they leave, is load's (specs/Measured,
    specs/Hashed)."""
    junk = [filled(n, 7 + k) for k, n in enumerate(case["sizes"])]
    buckets = filled(case["buckets"], 12)
    given, limit = [numbers(unhex(case["in"])), lists(junk)], [str(case["limit"])]
    loaded = "record { answer = %s; counts = %s; used = %d; form = %s }" % (
        answer(case["answer"]), counts(case["counts"]), case["used"], ["false", "true"][case["dump_form"]])
    measured = "record { answer = record { load = %s; copied = %d; compared = %d }; lent = %s }" % (
        loaded, case["copied"], case["compared"], left_of(case, case["answer"][0], junk))
    if case["hashed"] != case["answer"]:
        loaded = "record { answer = %s; counts = %s; used = 0; form = false }" % (answer(case["hashed"]), counts([0] * 4))
    number = case["hashed"][0]
    hashed = "record { answer = record { load = %s; looked = %d }; lent = %s; buckets = %s }" % (
        loaded, case["looked"], left_of(case, number, junk), buckets if number == 1 else filled(case["buckets"], 0))
    return [(" ".join(["LM.measured_call"] + given + limit), measured),
            (" ".join(["LH.hashed_call"] + given + [buckets] + limit), hashed)]


def tables(nodes, refs, data):
    return "(record { nodes = %s; references = %s; bytes = %s })" % (nodes, refs, data)


def dump(case):
    scratch, output = filled(case["scratch"], 5), filled(case["out"], 6)
    number = case["answer"][0]
    if number in (1, 2):
        after = (scratch, output)
    elif number:
        after = (filled(case["scratch"], 0), filled(case["out"], 0))
    else:
        after = (filled(case["scratch"], 0), padded(unhex(case["written"]), case["out"]))
    left = "D.dump_call %s %s %s %s %d" % (tables(numbers(case["nodes"]), numbers(case["refs"]), numbers(unhex(case["bytes"]))),
                                          counts(case["counts"]), scratch, output, case["limit"])
    return [(left, "D.dump_call_of %s %d %s %s" % (answer(case["answer"]), case["length"], after[0], after[1]))]


def build(case):
    name, args = case["fn"], case["args"]
    before = (numbers(case["nodes"]), numbers(case["refs"]), numbers(unhex(case["bytes"])))
    after = (numbers(case.get("nodes_after", case["nodes"])), numbers(case.get("refs_after", case["refs"])),
             numbers(unhex(case.get("bytes_after", case["bytes"]))))
    got = answer(case["answer"])
    lent = "(B.lent %s %s)" % (" ".join(before), counts(case["counts"]))
    if name == "new":
        return [("B.new_call %s" % tables(*before), "record { answer = record { answer = %s; counts = %s }; tables = %s }" % (
            got, counts(case["counts_after"]), tables(*after)))]
    words = case.get("words")
    if name in ("root", "kind"):
        run = "B.get_root" if name == "root" else "B.get_kind %d" % args[0]
        return [("B.number_done ((%s) %s)" % (run, lent), "record { answer = %s; value = %d }" % (got, (words or [0])[0]))]
    if name == "get":
        return [("B.words_done (B.get_words %d %s)" % (args[0], lent), "record { answer = %s; words = %s }" % (got, numbers(words or [0] * model.WIDTH)))]
    if name == "get_symbol":
        start, length = words or (0, 0)
        return [("B.name_done (B.get_name %d %s)" % (args[0], lent), "record { answer = %s; start = %d; length = %d }" % (got, start, length))]
    if name in ("replace_root", "replace_class"):
        run = " ".join(["B.exchange_" + name.partition("_")[2]] + [str(a) for a in args])
    elif name == "create_bool":
        run = "B.create_bool %s" % ("true" if args[0] else "false")
    elif name == "create_bignum":
        run = "B.create_bignum %s %d %d" % ("true" if args[0] else "false", args[1], args[2])
    elif name == "create_fixnum":
        run = "B.create_fixnum %s" % integer(args[0] - 2 ** 32 if args[0] >= 2 ** 31 else args[0])
    else:
        shown = [numbers(a) if isinstance(a, list) else numbers(unhex(a)) if isinstance(a, str) else str(a) for a in args]
        run = " ".join(["B." + name] + shown)
    right = "record { answer = record { answer = %s; handle = %d; counts = %s }; tables = %s }" % (
        got, case["handle"], counts(case["counts_after"]), tables(*after))
    return [("B.build_call (%s) %s" % (run, lent), right)]


def pair(case):
    """Each input loaded under the program list's sizes, and what it loads to dumped."""
    out = []
    for x in "ab":
        want = case["dump_" + x]
        out.append(("redump %s" % numbers(unhex(case[x])), "some %s" % numbers(unhex(want))))
    return out


def lent_of(case):
    """The arena that is lent."""
    tables = [numbers(case["nodes"]), numbers(case["refs"]), numbers(unhex(case["bytes"]))]
    return "(B.lent %s %s)" % (" ".join(tables), counts(case["counts"]))


def weigh(case):
    """The weighing, and what each of the two nodes reads as, doubles by their bits."""
    lent = lent_of(case)
    weighing = "weighing_bits (W.weighed_done (W.wet_weight %d %d %s))" % (case["dry"], case["moisture"], lent)
    out = [(weighing, "(%s, %d, %d, %d)" % tuple([answer(case["answer"])] + case["weighing"]))]
    for handle in (case["dry"], case["moisture"]):
        got, (kind, x) = model.read(case, handle)
        shown = ["nothing", "(whole %s)" % integer(x), "(bits %d)" % model.bits(x)][kind]
        out.append(("reading_bits (W.read_done (W.get_reading %d %s))" % (handle, lent), "(%s, %s)" % (answer(got), shown)))
    return out


def cost(case):
    left = "C.cost_done (C.batch_cost %d %d %s)" % (case["recipe"], case["prices"], lent_of(case))
    return [(left, "record { answer = %s; cents = %d }" % (answer(case["answer"]), case["cents"]))]


EQUATIONS = {"load": load, "dump": dump, "build": build, "pairs": pair, "weigh": weigh, "cost": cost}

HEAD = """-- Cases of {name}.
use Rattle.std.specs.Prelude.{{ℕ, ◌≡◌, refl, Bool, true, false, List, [], ◌∷◌, ◌++◌, pos, negsuc, replicate}}
use Rattle.std.proofs.Math.Option.{{Option, none, some}}
use Rattle.std.specs.Int.Count
use Rattle.std.specs.Float.Ieee
use Rattle.definition.specs.Arena as A
use Rattle.definition.specs.State as S
use Rattle.definition.specs.Load as L
use Rattle.definition.specs.LoadMeasured as LM
use Rattle.definition.specs.LoadHashed as LH
use Rattle.definition.specs.Dump as D
use Rattle.definition.specs.Build as B
use Rattle.definition.specs.Run.{{Outcome, ok, refused}}
use Rattle.definition.specs.Refused.{{Accepted, Refused}}
use Rattle.definition.specs.declared.Fault.TheVariants.{{Counts as BadCounts, Node}}
use Rattle.definition.specs.declared.Refusal.TheVariants.{{BadTables, BadArena, InvalidVersion, ShortInput, InvalidKind, NegativeCount, MissingSymbol, MissingObject, NotASymbol, NotAnObject, TooDeep, NoSpace, BadHandle, WrongKind, BadSign, TooBig, NotAWeight, BadMoisture, WrongSign, NotARecipe, NoPrice, NotWrappable}}
"""

PAIRS = """
room : S.Room
room = record {{ nodes = 1000; references = 4000; bytes = 16384; symbols = 1000; objects = 1000 }}

dumped : Outcome D.Written (Unit {{0}}) → Option (List ℕ)
dumped (ok x s) = some s.bytes
dumped (refused r) = none

loaded : Outcome S.State ℕ → Option (List ℕ)
unfolding dumped {unfolding}
loaded (ok h s) = dumped (D.dump 100000 (record {{ nodes = s.nodes; references = s.references; bytes = s.bytes; root = h }}) 128)
loaded (refused r) = none

redump : List ℕ → Option (List ℕ)
unfolding room loaded {unfolding}
redump input = loaded (L.load input room 64)
"""

WEIGH = """
use Rattle.std.specs.Prelude.{{ℤ}}
use Rattle.std.specs.Float.{{binary64}}
use Rattle.std.specs.Float.Ieee.{{to_bits}}
use Rattle.definition.specs.Weight as W
use Rattle.definition.specs.Refused.{{Answer}}
use Rattle.definition.specs.Weight.{{ReadingAnswer}}
use Rattle.definition.specs.declared.Reading.{{Reading}}
use Rattle.definition.specs.declared.Reading.TheVariants.{{Whole, Double, NotANumber}}
use Rattle.definition.specs.Weight.{{WeighedAnswer}}

-- a reading with a double by its bits
data Shown : Type 0 where
  nothing : Shown
  whole : ℤ → Shown
  bits : ℕ → Shown

shown : Reading → Shown
unfolding to_bits
shown NotANumber = nothing
shown (Whole n) = whole n
shown (Double x) = bits (to_bits binary64 x)

reading_bits : ReadingAnswer → Answer × Shown
unfolding shown
reading_bits r = (r.answer, shown r.reading)

weighing_bits : WeighedAnswer → Answer × ℕ × ℕ × ℕ
unfolding to_bits
weighing_bits w = (w.answer, to_bits binary64 w.weighing.dry, to_bits binary64 w.weighing.moisture, to_bits binary64 w.weighing.wet)
"""

COST = """
use Rattle.definition.specs.Cost as C
"""

# What the cases of a call need besides, and which of that the checker has to see through.
MORE = {"pairs": (PAIRS, ["redump"]), "weigh": (WEIGH, ["reading_bits", "weighing_bits", "shown"]), "cost": (COST, [])}


def names():
    """Every definition that the checker has to see through, by its path."""
    found = ["Rattle.std.specs.Int.Count.count_leading_zeros"] + ["Rattle.std.specs.Float.Ieee." + n for n in IEEE]
    for m in MODULES:
        text = open(os.path.join(DEFINITION, "specs", m + ".antt")).read()
        for n in re.findall(r"^ *unfoldable pub (\S+)", text, re.M):
            found.append("Rattle.definition.specs.%s.%s" % (m, n))
    return " ".join(found)


def write_crate(folder, label, equations):
    """The crate of a file's equations."""
    more, own = MORE.get(label, ("", []))
    unfolding = names()
    seen = " ".join(own + [unfolding])
    os.makedirs(os.path.join(folder, "specs"))
    os.makedirs(os.path.join(folder, "src"))
    open(os.path.join(folder, "src", "lib.rt"), "w").write("// Cases only.\n#![tactic(auto)]\n")
    mods = []
    for i in range(0, len(equations), PER_MODULE):
        mods.append("Part%d" % (i // PER_MODULE))
        with open(os.path.join(folder, "specs", mods[-1] + ".antt"), "w") as f:
            f.write(HEAD.format(name=label) + more.format(unfolding=unfolding))
            for name, (left, right) in equations[i:i + PER_MODULE]:
                f.write("\n%s : %s ≡ %s\nunfolding %s\n%s = refl\n" % (name, left, right, seen, name))
    open(os.path.join(folder, "specs", "Lib.antt"), "w").write("".join("pub mod %s\n" % m for m in mods))


def equations_of(name, cases):
    return [("case_%s_%d" % (re.sub(r"[./-]", "_", case["id"]), k), e)
            for case in cases if corpus.runs(case) for k, e in enumerate(EQUATIONS[name](case))]


def parts_of(found, wanted):
    """The cases of each file: all of them, or of those that are wanted every n-th."""
    steps = {part: int(step or 1) for part, _, step in (word.partition(":") for word in wanted or found)}
    unknown = [part for part in steps if part not in found]
    if unknown:
        raise SystemExit("no such part: " + ", ".join(unknown))
    return {part: found[part][::step] for part, step in steps.items()}


def check(work, found, wanted):
    """Prints how many equations hold, and the cases that don't; whether all hold."""
    parts = {label: equations_of(label, cases) for label, cases in parts_of(found, wanted).items()}
    crates = {label: "c_" + label for label in parts}
    os.makedirs(os.path.join(work, "crates"))
    subprocess.run(["git", "init", "-q", work], check=True)
    shutil.copytree(DEFINITION, os.path.join(work, "crates", "definition"), ignore=shutil.ignore_patterns("out"))
    for label, equations in parts.items():
        write_crate(os.path.join(work, "crates", crates[label]), label, equations)
    with open(os.path.join(work, "crates.txt"), "w") as f:
        f.write("definition:\n" + "".join("%s: definition\n" % c for c in crates.values()))
    return all([check_part(work, label, crates[label], len(equations)) for label, equations in parts.items()])


def check_part(work, label, crate, total):
    run = subprocess.run(["rt", "check"], cwd=os.path.join(work, "crates", crate), capture_output=True, text=True, env=dict(os.environ, RT_CUT="400"))
    log = run.stdout + run.stderr
    failed = sorted(set(re.findall(r"error: `?(case_\S+?)`?:", log)) | set(re.findall(r"in `(case_[^`]*)`", log)))
    if run.returncode == 0:
        print("%s: %d of %d hold" % (label, total, total), flush=True)
        return True
    if failed:
        print("%s: %d of %d hold; not: %s" % (label, total - len(failed), total, " ".join(failed)), flush=True)
    else:
        print("%s: not checked" % label, flush=True)
    open(os.path.join(work, crate + ".log"), "w").write(log)
    return False
