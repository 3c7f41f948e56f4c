"""The sources keep memory byte addresses and pool word numbers apart: what the compiler cannot see is looked for in
their text.

Outside the crate words nobody makes a PoolWord or a ByteAddr but by `from`, `after` and FIRST_WORD, nobody takes one
apart but by `index`, `entry` and `u32::from`, the pool is read and cut at what a PoolWord's `index` gave, and no bare
number has a name that says pool word or address. The real text must pass, and copies with one wrong line must each be
refused for it. Prints how many tests passed and failed.
"""
import pathlib
import re
import sys

ROOT = pathlib.Path(__file__).resolve().parent.parent

NUMBER = r"(?:u8|u16|u32|u64|usize)"

# Names by which a parameter or a field says that it is a pool word or an address.
NAMES = {"addr", "address", "at", "back", "base", "first", "from", "past", "root", "start", "table", "target", "word"}

# Bare numbers that have such a name and are neither: (crate, function or struct, name) with what they are.
BARE = {
    ("table", "Loaded", "word"): "what a pool word holds",
    ("plan", "next_free", "from"): "a place number",
    ("plan", "take_place", "from"): "a place number",
    ("change", "next_given_up", "from"): "the number of an entry in its table",
    ("change", "next_in_place", "from"): "the number of an entry in its table",
    ("listing", "Run", "first"): "a memory word number",
    ("listing", "Run", "past"): "a memory word number",
    ("listing", "Open", "first"): "a memory word number",
    ("listing", "Open", "from"): "a run number",
    ("listing", "put_run", "from"): "a run number",
    ("listing", "close", "at"): "a memory word number",
    ("listing", "turn_to", "at"): "a memory word number",
    ("listing", "feed_right", "at"): "a memory word number",
    ("listing", "feed_rights", "at"): "a memory word number",
    ("listing", "feed_leaf", "at"): "a memory word number",
    ("listing", "feed_table", "at"): "a memory word number",
    ("listing", "feed_entry", "at"): "a memory word number",
    ("listing", "list_domain", "from"): "a run number",
    ("listing", "list_domains", "from"): "a run number",
    ("listing", "list_runs", "from"): "a run number",
    ("lines", "Request", "start"): "a number from a line of text",
    ("lines", "feed", "from"): "a byte of what was read",
    ("rights_listing", "show", "from"): "a run number",
    ("rights_listing", "write_page", "from"): "a run number",
    ("rights_listing", "copy", "at"): "a byte of what is written",
    ("rights_listing", "write_number", "at"): "a byte of what is written",
    ("goleuthan", "gol_lookup", "address"): "a number from C",
    ("goleuthan", "gol_change", "start"): "a number from C",
    ("goleuthan", "gol_list", "from"): "a run number",
    ("goleuthan", "list", "from"): "a run number",
    ("goleuthan", "gol_check", "address"): "a number from C",
    ("goleuthan", "gol_flush_region", "start"): "a number from C",
    ("goleuthan", "gol_set_switch_gate", "address"): "a number from C",
    ("goleuthan", "gol_set_return_gate", "address"): "a number from C",
    ("goleuthan", "gol_remove_gate", "address"): "a number from C",
    ("goleuthan", "gol_step", "address"): "a number from C",
    ("goleuthan", "gol_step", "target"): "a number from C",
    ("goleuthan", "gol_make_region", "start"): "a number from C",
    ("goleuthan", "gol_pass_region", "start"): "a number from C",
    ("goleuthan", "gol_give_export", "start"): "a number from C",
    ("goleuthan", "gol_change_by", "start"): "a number from C",
    ("lookaside", "slot_at", "at"): "a word of a lent state",
    ("lookaside", "put_slot", "at"): "a word of a lent state",
}

# Functions whose name says so and that give a bare number: (crate, function) with what it is.
GIVES_NUMBER = {
    ("targets", "paint_word"): "a leaf entry",
    ("change", "final_word"): "what a pool word is to hold",
}
SAYS_WORD = re.compile(r"(?:^|_)(?:word|addr|address|start)$")

# Functions of a trait that have no body.
NO_BODY = {("change", "next_store")}

# Functions that go on from an index of the pool, with the reason.
OFFSETS = {
    ("targets", "entries_have"): "its loop passes over the pages of a block, for most of the time of a plan",
    ("listing", "feed_leaf"): "its loop passes over the entries of every leaf",
}

# The index of a pool word that has a name, or of one some words after it.
INDEX = r"\w+(?:\.\w+)*(?:\.after\((?:[^()]|\([^()]*\))*\))*\.index\(\)"

# The names of slices of words that are not the pool.
SLICES = {"part", "runs", "out", "ws", "shape", "buffer", "gates", "stack", "regions"}


def closing(text, start, pair):
    """Where the bracket that opens at `start` is closed."""
    depth = 0
    for i in range(start, len(text)):
        depth += (text[i] == pair[0]) - (text[i] == pair[1])
        if depth == 0:
            return i
    raise ValueError("a bracket stays open")


def code(text):
    """The text without comments, imports of definitions, and contracts."""
    text = re.sub(r"//[^\n]*", "", text)
    text = re.sub(r"(?m)^ghost use [^;]*;", "", text)
    clause = re.compile(r"(?m)^\s+(?:requires|ensures|ghost)\b[^{]*")
    while found := clause.search(text):
        text = text[:found.start()] + "\n" + text[closing(text, found.end(), "{}") + 1:]
    return text


def past_generics(text, at):
    """Where the parameters of a function begin whose name ends at `at`: what it is generic over stands between."""
    depth = 0
    while depth or text[at] != "(":
        depth += (text[at] == "<") - (text[at] == ">" and text[at - 1] != "-")
        at += 1
    return at


def outside_brackets(text, at, wanted):
    """Where what is wanted comes next after `at`, not within brackets: an array's type has a semicolon of its own."""
    while text[at] in "[(" or not re.compile(wanted).match(text, at):
        at = closing(text, at, "[]" if text[at] == "[" else "()") + 1 if text[at] in "[(" else at + 1
    return at


def functions(text):
    """Of each function: its name, parameters, result type and body, which a trait's function may lack."""
    for found in re.finditer(r"\bfn (\w+)", text):
        begin = past_generics(text, found.end())
        end = closing(text, begin, "()")
        past = outside_brackets(text, end + 1, r"[{;]|\bwhere\b")
        brace = outside_brackets(text, past, r"[{;]")
        body = text[brace:closing(text, brace, "{}") + 1] if text[brace] == "{" else ""
        yield found.group(1), text[begin + 1:end], text[end + 1:past].replace("->", "").strip(), body


def structs(text):
    """Of each struct or enum: its name and what it holds."""
    for found in re.finditer(r"\b(?:struct|enum) (\w+)\s*(?:<[^{]*>\s*)?\{", text):
        yield found.group(1), text[found.end():closing(text, found.end() - 1, "{}")]


def index_fault(crate, name, body):
    """The first place of the pool that is not what `index` gave."""
    given = set(re.findall(rf"\blet (\w+) = {INDEX};", body))

    def is_given(index):
        return index in given or re.fullmatch(INDEX, index)

    for found in re.finditer(r"\bpool\[", body):
        place = body[found.end():closing(body, found.end() - 1, "[]")].strip()
        first, dots, end = place.partition("..")
        on = re.fullmatch(r"(\w+) \+ .*", end if dots else first)
        on = on and on.group(1)
        if on in given and first in (on, place) and (crate, name) in OFFSETS:
            continue
        if place == dots or not all(is_given(index) for index in (first, end) if index):
            return f"{name}: pool[{place}] is no place that index gave"
    for method in re.findall(r"\bpool\s*\.(\w+)", body):
        if method != "len":
            return f"{name}: pool.{method} goes by no index"
    return None


def faults(crate, text, met):
    """What is wrong in a file of a crate; what the lists allow is added to `met`."""
    text = code(text)
    for made in re.findall(r"\b(?:PoolWord|ByteAddr)\s*\(|\.into\(\)", text):
        yield f"made by hand: {made}"
    for named in re.findall(r"\bfn (index|after|entry)\b", text):
        yield f"named as what words has: {named}"
    for taken in re.findall(r"[\w)\]]\.0\b", text):
        yield f"taken apart: {taken}"
    holds = [(name, body) for name, body in structs(text)]
    holds += [(name, parameters) for name, parameters, _, _ in functions(text)]
    for owner, body in holds:
        for field in re.findall(rf"\b(\w+): {NUMBER}\b", body):
            if field in NAMES and (crate, owner, field) not in BARE:
                yield f"a bare number: {field} of {owner}"
            met.add((crate, owner, field))
        for lent in re.findall(r"\b(\w+): &(?:mut )?\[u32\]", body):
            if lent != "pool" and lent not in SLICES:
                yield f"no known slice: {lent} of {owner}"
    for name, _, result, body in functions(text):
        if not body and (crate, name) not in NO_BODY:
            yield f"has no body: {name}"
        if SAYS_WORD.search(name) and re.fullmatch(NUMBER, result) and (crate, name) not in GIVES_NUMBER:
            yield f"gives a bare number: {name}"
        met.add((crate, name))
        if fault := index_fault(crate, name, body):
            yield fault


def sources():
    """The crate and the path of each file that the rules are for."""
    for path in sorted(ROOT.glob("crates/*/src/*.rt")):
        crate = path.parts[-3]
        if crate != "words":
            yield crate, path


# One wrong line in a copy of the real text: file, what stands there, what is put there, how the refusal begins.
WRONG = [
    ("census", "let word = base.after(i as usize);", "let word = PoolWord(i as usize);", "made by hand"),
    ("lookaside/slots", "ByteAddr::from(a - a % block_bytes(level))", "ByteAddr(a - a % block_bytes(level))", "made by hand"),
    ("lookaside/slots", "ByteAddr::from(a - a % block_bytes(level))", "(a - a % block_bytes(level)).into()", "made by hand"),
    ("gates/steps", "if caller.back != target {", "if caller.back.0 != target.0 {", "taken apart"),
    ("listing", "let w = pool[entry.index()];", "let w = pool[entry.0];", "taken apart"),
    ("table", "let word = pool[at.index()];", "let word = pool[before as usize];", "load: pool[before as usize]"),
    ("table", "fill(&mut pool[..first_middle.index()],", "fill(&mut pool[..shape.domains as usize],", "fresh: pool[..shape.domains as usize]"),
    ("plan", "pool[page.index()]", "pool[root as usize]", "old_entry: pool[root as usize]"),
    ("census", "let w = pool[word.index()];", "let w = pool[word.index() + 1];", "table_check: pool[word.index() + 1]"),
    ("targets", "let w = pool[start + j as usize];", "let w = pool[number + j as usize];",
     "entries_have: pool[number + j as usize]"),
    ("change/ahead", "    table: PoolWord,", "    table: u32,", "a bare number: table of near_entries"),
    ("plan", "    pub number: u32,", "    pub word: u32,", "a bare number: word of Edge"),
    ("change/ahead", "    pub past: PoolWord,", "    pub past: u32,", "a bare number: past of Span"),
    ("change/tidying", "base: PoolWord, i: u32", "base: u32, i: u32", "a bare number: base of target_at"),
    ("gates", "    pub back: ByteAddr,", "    pub back: u32,", "a bare number: back of Frame"),
    ("census", "n: usize) -> PoolWord", "n: usize) -> u32", "gives a bare number: place_word"),
    ("change", "    guide: &G,", "    word: u32,\n    guide: &G,", "a bare number: word of make_stores"),
    ("owners/list", "place_of<F: Fn(Owned) -> bool>(ws: &[u32]", "place_of<F: Fn(Owned) -> bool>(at: u32, ws: &[u32]",
     "a bare number: at of place_of"),
    ("change/tidying", "pub struct ByOwners<'a> {", "pub struct ByOwners<'a> {\n    pub past: u32,",
     "a bare number: past of ByOwners"),
    ("goleuthan/calls", "let by = table::lookup(pool,", "let seen = pool[domain as usize]; let by = table::lookup(pool,",
     "look_up: pool[domain as usize]"),
    ("goleuthan/calls", "let count = listing::list_runs(pool,", "pool.first(); let count = listing::list_runs(pool,",
     "list: pool.first"),
    ("goleuthan/results", "results: &[u32; N], out:", "cells: &[u32], out:", "no known slice: cells of put"),
    ("census", "fn census(pool: &[u32],", "fn census(cells: &[u32],", "no known slice: cells"),
]


def main():
    passed, failed, met = 0, [], set()
    for crate, path in sources():
        found = list(faults(crate, path.read_text(), met))
        passed += not found
        failed += [f"{path.relative_to(ROOT)}: {fault}" for fault in found]
    crates = {crate for crate, _ in sources()}
    for entry in [*BARE, *GIVES_NUMBER, *NO_BODY, *OFFSETS]:
        if entry[0] in crates and entry not in met:
            failed.append(f"nothing is called {'::'.join(entry)}, which a list allows")
    for name, old, new, begins in WRONG:
        crate, _, module = name.partition("/")
        text = (ROOT / "crates" / crate / "src" / f"{module or 'lib'}.rt").read_text()
        found = list(faults(crate, text.replace(old, new), set()))
        if text.count(old) != 1:
            failed.append(f"{name}: the text of a wrong copy stands {text.count(old)} times: {old}")
        elif not any(fault.startswith(begins) for fault in found):
            failed.append(f"{name}: a wrong copy was accepted: {new}")
        else:
            passed += 1
    for line in failed:
        print("units:", line, file=sys.stderr)
    print(passed, len(failed))


main()
