"""Wrong sources and harmless ones, each an edit of the real text."""
import re

CHANGE, TIDYING, AHEAD = (f"crates/change/src/{name}.rt" for name in ("lib", "tidying", "ahead"))
FACE, TABLE, CENSUS, PLAN = (f"crates/{name}/src/lib.rt" for name in ("goleuthan", "table", "census", "plan"))
CALLS = "crates/goleuthan/src/calls.rt"
BUFFER, STEPS = "crates/lookaside/src/lib.rt", "crates/gates/src/steps.rt"
OWNERS, REGIONS, LIST = (f"crates/owners/src/{name}.rt" for name in ("lib", "calls", "list"))
MAIN, SERVING = (f"crates/rights_listing/src/{name}.rt" for name in ("main", "serving"))

ASKED = "    plan_request(\n        pool,"
STORE = "    pool[at.index()] = value;"
SEARCH = "fn next_store(&self, pool: &[u32], shape: Shape, from: Cursor)"
GUIDE = "ByPlan { plan: &plan }"
PLANNED = "if !plan::plan_change("
NEXT = "guide.next_store(pool, shape, from)"
PUT = "put(pool, shape, domain, paint, at, value);"
CHANGED = "make_stores(pool, shape, domain, paint, &guide, allowance)"
TIDIED = "make_stores(pool, shape, 0, UNPAINTED, &guide, allowance)"
FRESH = "table::fresh(&mut pool, serving::shape())"
FILL = "fill(&mut pool[first_middle.index()..], 0);"
LOAD = "let got = load(pool, at, loads);"
WALK = "let by = decide(pool, shape, domain, address)?;"
WALK_OF_A_CHECK = "let by = table::decide(pool, shape, domain, address)?;"
TIDY = "change::tidy(pool, read_shape(shape)?, allowance)"
BY = "change::change(pool, shape, domain, start, length, right, allowance)"
MET = "if caller != SUPERVISOR || list::place_of(ws, meets)"


def before(path, place, what):
    """An edit that puts something before a place."""
    return path, place, f"{what} {place}"


def lent(path, function):
    """An edit by which a function holds its first parameter to write in."""
    return path, f"fn {function}(pool: &[u32]", f"fn {function}(pool: &mut [u32]"


# What a wrong source does, the rule that must refuse it, and the edits that make it.
WRONG = [
    ("writes a word and writes it back before a change", "handed on",
     [before(CHANGE, ASKED, "let was = pool[0]; pool[0] = 7; pool[0] = was;")]),
    ("writes a word and writes it back in the one store", "one store",
     [before(CHANGE, STORE, "let was = pool[0]; pool[0] = 7; pool[0] = was;")]),
    ("adds to a word in the one store", "one store", [(CHANGE, STORE, STORE.replace("=", "+="))]),
    ("makes another change first, where the allowance is the greatest", "the allowance",
     [before(CHANGE, CHANGED, "if allowance == 0xFFFF_FFFF { " + CHANGED + "; }")]),
    ("makes another change first", "called once", [before(CHANGE, CHANGED, CHANGED + ";")]),
    ("changes by calling itself", "handed on",
     [before(CHANGE, ASKED, "change(pool, shape, domain, start, length, 3, 1);")]),
    ("makes the stores of a tidying in a loop", "called once", [(TIDYING, TIDIED, "loop { return " + TIDIED + "; }")]),
    ("makes two stores a turn", "called once", [before(CHANGE, PUT, PUT)]),
    ("has a second loop of stores", "the loop",
     [before(CHANGE, "let mut from = START;", "while left == 1 { left -= 1; }")]),
    ("stores another value", "the loop", [(CHANGE, PUT, PUT.replace("value", "value + 1"))]),
    ("asks for the next store by what is left", "the loop", [(CHANGE, NEXT, NEXT.replace("shape,", "shape, left,"))]),
    ("tells the search for the next store the allowance", "the allowance",
     [(CHANGE, NEXT, NEXT.replace("shape,", "shape, allowance,")),
      (CHANGE, SEARCH, SEARCH.replace("from", "allowance: u32, from"))]),
    ("tells what the search goes by the allowance", "the allowance",
     [(CHANGE, GUIDE, GUIDE.replace(" }", ", most: allowance }"))]),
    ("lends the pool to what the search goes by", "handed on", [(CHANGE, GUIDE, GUIDE.replace(" }", ", pool }"))]),
    ("tells the one store what is left", "the allowance",
     [(CHANGE, PUT, PUT.replace("value", "value, left")),
      (CHANGE, "at: PoolWord, value: u32)", "at: PoolWord, value: u32, left: u32)")]),
    ("refuses by the allowance", "the allowance",
     [before(CHANGE, ASKED, "if allowance == 7 { return Ok(Ending::Cut); }")]),
    ("knows the allowance by another name", "the allowance", [before(CHANGE, ASKED, "let n = allowance;")]),
    ("stores in the search for the next store", "held",
     [(AHEAD, SEARCH, SEARCH.replace("&[u32]", "&mut [u32]")),
      before(AHEAD, "next_change(pool, shape, self.plan, from)", "pool[0] = 0;")]),
    ("stores in a search of another file", "one store",
     [lent(AHEAD, "next_here"), before(AHEAD, "let value = final_word(", "pool[0] += 0;")]),
    ("writes by way of a part of the pool", "held",
     [before(TIDYING, TIDIED, "let part = &mut pool[..]; part[0] = 7;")]),
    ("swaps words by a function of slices", "handed on", [before(CHANGE, ASKED, "pool.swap(0, 1); pool.swap(0, 1);")]),
    ("gives the pool another name", "handed on", [before(CHANGE, ASKED, "let same = pool;")]),
    ("keeps the pool in a struct", "held",
     [before(CHANGE, "pub struct Store {", "pub struct Held { pub pool: &mut [u32] }")]),
    ("writes in a method of what holds the pool", "held",
     [before(CHANGE, "pub struct Store {", "impl Held { fn set(&mut self) { self.pool[0] = 7; } }")]),
    ("opens the one store to other crates", "called once", [(CHANGE, "\nfn put(", "\npub fn put(")]),
    ("writes the pool in the census", "below",
     [lent(CENSUS, "census"), before(CENSUS, "    owners.fill(NONE);", "pool[0] = 7;")]),
    ("lends the pool to one more function of the census", "below", [lent(CENSUS, "plain_ahead")]),
    ("writes the pool while it plans", "below",
     [(PLAN, "pub fn plan_change(\n    pool: &[u32]", "pub fn plan_change(\n    pool: &mut [u32]")]),
    ("alters a plan that is made", "one store", [before(CHANGE, PLANNED, "plan[1] = 0;")]),
    ("lends a plan to be altered once more", "held",
     [before(CHANGE, "    let guide = ByPlan", "plan::put_edge(&mut plan, 4, edge);")]),
    ("fills a part of the pool twice", "below",
     [before(TABLE, FILL, FILL.replace("0)", "7)"))]),
    ("stores a word twice where the pool is made fresh", "below", [before(TABLE, "part[i] = value;", "part[i] = 7;")]),
    ("turns a part of the pool round where it is made fresh", "below", [before(TABLE, FILL, "pool[..9].reverse();")]),
    ("turns the pool round in the one store", "handed on", [before(CHANGE, STORE, "pool.reverse(); pool.reverse();")]),
    ("makes a pool fresh in a tidying", "nobody else", [before(TIDYING, TIDIED, "table::fresh(pool, shape);")]),
    ("stores in the C face", "above", [before(CALLS, TIDY, "pool[0] = 7;")]),
    ("tidies twice in the C face", "above",
     [before(CALLS, TIDY, TIDY + ";")]),
    ("lets a lookup for C write the pool", "above",
     [(FACE, "gol_lookup(\n    pool: &[u32]", "gol_lookup(\n    held: &mut [u32]")]),
    ("changes a word of the program's pool", "above", [before(MAIN, FRESH, "pool[0] = 7;")]),
    ("changes a word where lines are answered", "above",
     [before(SERVING, "len = write_number(out, len,", "pool[0] = 7;")]),
]

# What a harmless source does, and the edits that make it.
HARMLESS = [
    ("calls what is left by another name", [(CHANGE, "left", "remaining")]),
    ("calls the parts of the next store by other names",
     [(CHANGE, "Store { at, value, on })", "Store { at: k, value: v, on: next })"),
      (CHANGE, PUT, PUT.replace("at, value", "k, v")), (CHANGE, "from = on;", "from = next;")]),
    ("calls the pool of the one store by another name",
     [(CHANGE, "fn put(pool: ", "fn put(held: "), (CHANGE, STORE, STORE.replace("pool", "held"))]),
    ("names the ending first",
     [(CHANGE, f"Ok({CHANGED})", f"let ending = {CHANGED}; Ok(ending)")]),
    ("has a store in a comment", [before(CHANGE, ASKED, "// pool[0] = allowance; put(pool) loop\n   ")]),
    ("breaks its lines elsewhere", [(CHANGE, PUT, PUT.replace(", ", ",\n            "))]),
    ("calls the pointer of a buffer by another name", [(BUFFER, "next", "pointer")]),
    ("calls the words of a list by another name", [(REGIONS, "ws", "regions")]),
    ("has one more function that reads",
     [before(CHANGE, "\nfn put(", "\nfn first(pool: &[u32]) -> u32 { pool[0] }\n")]),
]

WRONG += [
    ("loads a word twice", "loads", [before(TABLE, LOAD, LOAD)]),
    ("reads a word without counting it", "loads", [before(TABLE, LOAD, "let seen = pool[0];")]),
    ("walks twice in a lookup", "loads", [before(TABLE, WALK, WALK.replace("by", "again"))]),
    ("looks at the pool by itself in a check", "loads", [before(BUFFER, WALK_OF_A_CHECK, "let seen = pool[0];")]),
    ("writes a word of a buffer and writes it back before a check", "states",
     [before(BUFFER, "if let Some(slot) = layout::find(", "let was = buffer[0]; buffer[0] = 7; buffer[0] = was;")]),
    ("stores a slot that stays in a flush", "states",
     [before(BUFFER, "if empties(s) {", "layout::put_slot(ws, 4 * i, s);")]),
    ("stores the depth of a stack that a refusal leaves as it came", "states",
     [before(STEPS, "    if caller.back != target {", "stack[DEPTH] = depth;")]),
    ("holds a stack to write in where nothing is stored", "states",
     [(STEPS, "fn frames_below(stack: &[u32;", "fn frames_below(stack: &mut [u32;")]),
    ("makes the change of a caller twice", "above", [before(OWNERS, BY, BY + ";")]),
    ("stores in the pool before the list is asked", "above",
     [before(OWNERS, "    leave_of(\n        fits,", "pool[0] = 7;")]),
    ("knows the allowance of a caller by another name", "the allowance", [before(OWNERS, BY, "let n = allowance;")]),
    ("writes a word of a list and writes it back before a region is made", "states",
     [before(REGIONS, MET, "let was = ws[0]; ws[0] = 7; ws[0] = was;")]),
    ("writes a word of a list and writes it back in the search", "states",
     [(LIST, "-> bool>(ws: &[u32]", "-> bool>(ws: &mut [u32]"),
      before(LIST, "for i in 0..ws[COUNT] as usize {", "let was = ws[0]; ws[0] = 7; ws[0] = was;")]),
    ("stores the count of a list twice", "states",
     [before(REGIONS, "ws[COUNT] = count + 1;", "ws[COUNT] = count;")]),
]


def edited(texts, edits):
    """The texts with edits made: of a name wherever it is a word, else of what stands there once, or it fails."""
    made = dict(texts)
    for path, old, new in edits:
        if re.fullmatch(r"\w+", old):
            made[path] = re.sub(rf"\b{old}\b", new, made[path])
            continue
        times = made[path].count(old)
        if times != 1:
            raise ValueError(f"{path} has '{old}' {times} times")
        made[path] = made[path].replace(old, new)
    return made
