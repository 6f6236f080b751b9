"""Reads a corpus: a folder of *.jsonl files, a case a line, named for good by the request that it was made for. What a case says is
held against what tools/model.py works out of its input or arena."""
import json, os
import model

FILES = ["load", "dump", "build", "pairs", "weigh", "cost"]


def lines(folder, name):
    path = os.path.join(folder, name + ".jsonl")
    return [json.loads(line) for line in open(path)] if os.path.exists(path) else []


def noted(case):
    """What load, the measuring and the hashed load say of a case besides the tables: dump form, bytes copied and compared, words of
    the bucket table looked at."""
    if case["answer"][0]:
        return {"dump_form": 0, "copied": 0, "compared": 0, "looked": 0}
    walk = model.Walk(bytes.fromhex(case["in"]))
    if (walk.used, walk.copied) != (case["used"], case["counts"][2]):
        raise SystemExit("%s: %d bytes used and %d kept, walked over %d with %d" % (
            case["id"], case["used"], case["counts"][2], walk.used, walk.copied))
    return {"dump_form": int(walk.form), "copied": walk.copied, "compared": walk.compared,
            "looked": 0 if case["hashed"][0] else model.looked(walk.read, case["buckets"])}


def settle_load(case):
    """What is noted must be what the walk finds. The hashed load's answer is load's where a case gives no other."""
    case.setdefault("hashed", case["answer"])
    for what, found in noted(case).items() if "sizes" in case else []:
        if case[what] != found:
            raise SystemExit("%s: %s %d, walked %d" % (case["id"], what, case[what], found))


def settle_weigh(case):
    """A weighing's bits as numbers. What a case says must be what its nodes read as, and what Python's doubles make of that."""
    case["weighing"] = [int(x, 16) for x in case["weighing"]]
    if case["answer"][0] == 0:
        dry, moisture = (float(model.reading(case, case[x])[1]) for x in ("dry", "moisture"))
        found = [model.bits(x) for x in (dry, moisture, dry / (1 - moisture))]
        if found != case["weighing"]:
            raise SystemExit("%s: weighing %s, worked out %s" % (case["id"], case["weighing"], found))


def settle_cost(case):
    """What a case says must be what is worked out of its arena, but for 1 and 2, which come before that."""
    if case["answer"][0] in (1, 2):
        return
    found = model.batch_cost(case, case["recipe"], case["prices"])
    if found != (case["answer"], case["cents"]):
        raise SystemExit("%s: %s and %d cents, worked out %s and %d" % (case["id"], case["answer"], case["cents"], *found))


SETTLE = {"load": settle_load, "weigh": settle_weigh, "cost": settle_cost}


def read(folder):
    """The cases of each file."""
    found = {name: lines(folder, name) for name in FILES}
    if not any(found.values()):
        raise SystemExit("no cases in " + folder)
    for name, settle in SETTLE.items():
        for case in found[name]:
            settle(case)
    return found


def runs(case):
    """Can the call be made? Not where a slice's length alone is given (huge), nor without sizes, which is a case of a program."""
    return not case.get("huge") and ("in" not in case or "sizes" in case)


def of(name, found):
    """The cases of a file that can be run."""
    return [case for case in found[name] if runs(case)]


def request(case):
    """The request that a case was made for, base for document 01."""
    return case["id"].split("/")[0]


def listings(found):
    """The cases of load that say what the program list prints, or the SHA-256 of it."""
    return [case for case in found["load"] if "list_sha256" in case]


def accepted_since(case):
    """Is it a case of document 01 that is accepted only since document 02? It holds a Float, a Bignum or a class."""
    nodes = case.get("nodes", [])
    return request(case) == "base" and (any(k in (9, 10) for k in nodes[::model.WIDTH]) or any(nodes[7::model.WIDTH]))


def short_listings(found):
    """Of those, the accepted ones of document 02 whose listing is short."""
    return [case for case in listings(found) if "list" in case and not case["answer"][0] and request(case) != "base"]


def refusals(found):
    """Of the listings, for each refusal and slice without space, the shortest input."""
    shortest = {}
    for case in listings(found):
        kind = tuple(case["answer"][:2]) if case["answer"][0] == 12 else case["answer"][0]
        if case["answer"][0] and (kind not in shortest or len(case["in"]) < len(shortest[kind]["in"])):
            shortest[kind] = case
    return shortest.values()


def forms(pair):
    """Both inputs of a pair, each with whether it is in dump form: whether it begins with its dump. The walk must find it so."""
    for x in "ab":
        text = bytes.fromhex(pair[x])
        found = text.startswith(bytes.fromhex(pair["dump_" + x]))
        if model.Walk(text).form != found:
            raise SystemExit("%s: dump form of %s %d, walked %d" % (pair["id"], x, found, not found))
        yield text, found
