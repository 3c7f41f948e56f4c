"""The rules of one loop of stores: each gives what is wrong with a source."""
import re

from lists import ARRAYS, BELOW, CALLERS, EXPORTED, FILLERS, HOLDERS, LOOP, OWNERS, PLANNERS, READERS, RUN, STATES
from lists import TOLD
from source import assigned, use, uses


def handed_on(house, crate):
    """Each holder of the pool does with it what is listed, and nothing else."""
    wrong = []
    for name, listed in HOLDERS[crate].items():
        function = house.named(crate, name)
        pools = [p for p in function.lent() if p != "out"] if function else []
        done = uses(function.body, pools[0]) if len(pools) == 1 else []
        if sorted(done) != sorted(listed):
            wrong.append(f"{crate}: {name} does with the pool {done}, and may do {listed}")
    return wrong


def held(house):
    """In crate change four functions hold the pool to write in, and two fill the arrays of a change."""
    lent = house.lent("change")
    known = set(HOLDERS["change"]) | set(FILLERS)
    wrong = [f"change: {name} holds words to write in, or must" for name in set(lent) ^ known]
    wrong += [f"change: {name} holds {names}" for name, names in lent.items() if name not in FILLERS and len(names) != 1]
    for name, listed in FILLERS.items():
        function = house.named("change", name)
        done = {array: uses(function.body, array) for array in function.lent()} if function else {}
        if done != listed:
            wrong.append(f"change: {name} does with its arrays {done}, and may do {listed}")
    if "mut" in house.outside["change"]:
        wrong.append("change: something that is no function holds words to write in")
    for f in house.functions["change"]:
        for i in [i for i in range(len(f.body)) if f.body[i:i + 2] == ["&", "mut"]]:
            name = f.body[i + 2]
            local = f"let mut {name} = [ 0u32 ;" in " ".join(f.body) and name not in f.parameters
            if not local or use(f.body, i + 2) != ARRAYS.get((f.name, name)):
                wrong.append(f"change: {f.name} lends {name} to write in")
        if "fn" in f.body:
            wrong.append(f"change: {f.name} holds a function")
    return wrong


def one_store(house):
    """In crate change one word of a slice is assigned, in `put`."""
    found = [(f.name, by) for f in house.functions["change"] for by in assigned(f.body)]
    return [] if found == [("put", "=")] else [f"change: the stores are {found}"]


def called_once(house):
    """`put` is called in the loop alone, and the loop in `change` and `tidy`, which have none themselves."""
    wrong = []
    for name, callers in (("put", ["make_stores"]), ("make_stores", ["change", "tidy"])):
        function = house.named("change", name)
        if not function or function.public:
            wrong.append(f"change: {name} is not one function of its own crate alone")
        calls = [f.name for f in house.functions["change"] for token in f.body if token == name]
        if sorted(calls) != callers:
            wrong.append(f"change: {name} is named in {calls}")
    for f in house.functions["change"]:
        if f.name in ("put", "change", "tidy") and {"loop", "while", "for"} & set(f.body):
            wrong.append(f"change: {f.name} has a loop")
    return wrong


def read_loop(house):
    function = house.named("change", "make_stores")
    return re.fullmatch(LOOP, " ".join(function.body)) if function else None


def the_loop(house):
    """`make_stores` is the one loop, and what it asks and gives are names, not the allowance's."""
    found = read_loop(house)
    if not found:
        return ["change: make_stores is not the one loop"]
    told = {"allowance", found["left"]} & set(found["asked"].split() + found["given"].split())
    return [f"change: the loop hands on {sorted(told)}"] if told else []


def allowance(house):
    """Nothing but the loop, and what calls it, is told the allowance; the callers only hand it on."""
    found, wrong = read_loop(house), []
    left = found["left"] if found else "left"
    for crate, functions in house.functions.items():
        words = {"allowance", left} if crate == "change" else {"allowance"}
        if "allowance" in house.outside[crate]:
            wrong.append(f"{crate}: something that is no function is told the allowance")
        for f in functions:
            listed = TOLD.get((crate, f.name), [])
            known = sorted(words & set(f.parameters) | {"allowance"} & set(f.body))
            done = uses(f.body, "allowance")
            if listed != "the loop" and (done != listed or bool(known) != bool(listed)):
                wrong.append(f"{crate}: {f.name} is told {known}, and does with it {done}")
    return wrong


def below(house):
    """Below crate change words are lent to be made fresh, to count the owners and to plan, and for nothing else."""
    wrong = handed_on(house, "table")
    for crate in BELOW:
        may = {"table": {"fresh": ["pool"], "fill": ["part"]}, "census": OWNERS, "plan": PLANNERS}
        listed = may.get(crate, {})
        if house.lent(crate) != listed:
            wrong.append(f"{crate}: words to write in are {house.lent(crate)}, and may be {listed}")
        if "mut" in house.outside[crate]:
            wrong.append(f"{crate}: something that is no function holds words to write in")
    return wrong


def above(house):
    """Changes by callers, the C face and the program only hand the pool on."""
    wrong = handed_on(house, "owners") + handed_on(house, "goleuthan") + handed_on(house, "rights_listing")
    exported = {f.name: f.lent() for f in house.functions["goleuthan"] if f.exported}
    if exported != EXPORTED:
        wrong.append(f"goleuthan: the functions for C may write {exported}")
    if set(house.lent("rights_listing")) != set(HOLDERS["rights_listing"]):
        wrong.append(f"rights_listing: {sorted(house.lent('rights_listing'))} hold words to write in")
    run = house.named("rights_listing", "run")
    done = uses(run.body, "pool") if run else []
    if done != RUN:
        wrong.append(f"rights_listing: run does with the pool {done}, and may do {RUN}")
    return wrong


def nobody_else(house):
    """No other function is lent the pool, and nobody else calls what writes it."""
    wrong, callers = [], []
    for crate, functions in house.functions.items():
        for f in functions:
            if "pool" in f.lent() and f.name not in HOLDERS.get(crate, {}):
                wrong.append(f"{crate}: {f.name} holds the pool to write in")
            writers = r"change :: change \(|owners :: change_by \(|change :: tidy \(|table :: fresh \("
            calls = re.findall(writers, " ".join(f.body))
            callers += [f.name] * len(calls)
    if sorted(callers) != CALLERS:
        wrong.append(f"changes, tidyings and fresh pools are made by {callers}")
    return wrong


def states(house):
    """Who holds the words of a lent state does with them what is listed: what stays is not stored and stored back."""
    wrong = []
    for crate, listed in STATES.items():
        holders = [f for f in house.functions[crate] if f.lent()]
        wrong += [f"{crate}: {name} holds a state's words, or must" for name in {f.name for f in holders} ^ set(listed)]
        for f in holders:
            done = [uses(f.body, name) for name in f.lent()]
            if f.name in listed and done != [listed[f.name]]:
                wrong.append(f"{crate}: {f.name} does with a state {done}, and may do {listed[f.name]}")
        if "mut" in house.outside[crate]:
            wrong.append(f"{crate}: something that is no function holds words to write in")
    return wrong


def loads(house):
    """A lookup reads the pool in one place, which counts; checks and steps ask it, and have no walk of their own."""
    wrong = []
    for crate, readers in READERS.items():
        for name, listed in readers.items():
            function = house.named(crate, name)
            done = uses(function.body, "pool") if function else []
            if done != listed:
                wrong.append(f"{crate}: {name} does with the pool {done}, and may do {listed}")
    return wrong


RULES = {
    "held": held,
    "handed on": lambda house: handed_on(house, "change"),
    "one store": one_store,
    "called once": called_once,
    "the loop": the_loop,
    "the allowance": allowance,
    "below": below,
    "above": above,
    "nobody else": nobody_else,
    "states": states,
    "loads": loads,
}
