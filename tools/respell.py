#!/usr/bin/env python3
"""Brings this repository's own definitions and lemmas to the toolchain's spelling: words in snake case.

usage: python3 tools/respell.py            at the top, once, after the toolchain's own script for older repositories
       python3 tools/respell.py --list     only prints each old name with its new one

`lookupOf` becomes `lookup_of`, and `prefix-cut` becomes `prefix_cut`. Renamed is what the files of specs/ and proofs/ define; the
functions of src/, the types, and the names that the toolchain makes (the goals and steps of a proof) keep their spelling. A new name
that another name of the same reach already has is in TAKEN, with the name that it gets instead; a pair that falls together and is
not there stops the script before a file is written. The pages, the tests' edits and comments name definitions in backquotes or as
code, and are turned alike.
"""
import collections
import os
import re
import sys

WORD = r"[^\s(){}.;,@\"«»\[\]\\`]+"
TOKEN = re.compile(WORD)
SIGNATURE = re.compile(rf"^\s*((?:pub |abbrev |unfoldable )*)({WORD}(?: {WORD})*) : ?(.*)")
OPENS = ("use ", "let ", "in ", "where", "record ", "data ", "module ", "mod ", "open ", "--", "λ", "| ", "→ ", "× ")
MADE = re.compile(r"\b(?:tie|e|h|f|b|t|a)\.(?:Need|invariant|decreases)|\bstatement\b")
IMPORT = re.compile(r"(use )(Rattle\.([a-z_]+)\.[^\s{;]*?)\.\{([^}]*)\}", re.S)

# New names that something else of the same reach has: the old name, and what it becomes.
TAKEN = {
    "all_digits": "all_digits_lem",
}


def crates(root):
    with open(os.path.join(root, "crates.txt"), encoding="utf-8") as it:
        return [row.split(":")[0].strip() for row in it if row.strip() and not row.startswith("#")]


def files(root, *ends):
    for folder, dirs, names in os.walk(root):
        dirs[:] = sorted(d for d in dirs if d not in ("out", ".git", "target"))
        for name in sorted(names):
            if name.endswith(ends):
                yield os.path.join(folder, name)


def read(path):
    with open(path, encoding="utf-8") as it:
        return it.read()


def snake(name):
    """The name in snake case; a name that begins with a capital is a type, a fact or a section's variable, and stays."""
    if not re.match(r"[a-zμ]", name):
        return name
    name = re.sub(r"(?<=[a-z0-9])([A-Z])", lambda m: "_" + m[1].lower(), name)
    return re.sub(r"(?<=[\w'₀-₉])-(?=[\w])", "_", name)


def parameters(text):
    """The names that a clause of the source takes for something else: parameters, fields and constants."""
    return set(re.findall(r"(?:[(,{]|^)\s*(?:pub )?(?:mut )?(?:const |static )?(\w+): ", re.sub(r"//[^\n]*", "", text), re.M))


def definitions(text):
    """What a file defines: its names, and among them the fields of its records."""
    names, fields, inside = set(), set(), None
    for row in text.split("\n"):
        begins = row.strip()
        depth = len(row) - len(row.lstrip())
        if inside is not None and begins and depth <= inside:
            inside = None
        if re.match(r"(pub )?record .* where$", begins) or re.match(r"(pub )?record .* where\b", begins):
            inside = depth
            continue
        if begins.startswith(OPENS):
            continue
        found = SIGNATURE.match(row)
        if not found or MADE.search(found[3]):
            continue
        for name in found[2].split():
            names.add(name)
            if inside is not None:
                fields.add(name)
    return names, fields


def own_of(path, text, own):
    """The names of ours that a file may mean: what it defines, and what it imports from our crates."""
    reach, _ = definitions(text)
    for found in IMPORT.finditer(text):
        if found[3] in own and ".declared" not in found[2]:
            reach |= {it.strip().split(" as ")[0] for it in found[4].split(",") if it.strip()}
    return reach


def turned(text, names, fields, code):
    """The text with each of the names respelled. In prose, and in a comment, a name stands in backquotes."""

    def one(found):
        name, before = found[0], text_now[found.start() - 1 : found.start()]
        if name in fields and (before == "." or name in names or code_now):
            return fields[name]
        return names[name] if before != "." and name in names else name

    out = []
    for piece in re.split(r"(--[^\n]*|//[^\n]*)" if code else r"(?!)", text):
        comment = code and (piece.startswith("--") or piece.startswith("//"))
        if comment or not code:
            for part in re.split(r"(`[^`\n]*`)", piece):
                if part.startswith("`"):
                    text_now, code_now = part, True
                    part = TOKEN.sub(one, part)
                out.append(part)
        else:
            text_now, code_now = piece, True
            out.append(TOKEN.sub(one, piece))
    return "".join(out)


class Respelled:
    """The new names by the old ones, those among them that are spelled anew in the code already."""

    def __init__(self, defined, final):
        self.defined, self.final = defined, final

    def __contains__(self, name):
        return name in self.defined or (snake(name) != name and snake(name) in self.final)

    def __getitem__(self, name):
        return self.defined.get(name) or snake(name)


def main(argv):
    root = os.getcwd()
    own = set(crates(root))
    places = [it for it in files(os.path.join(root, "crates"), ".antt", ".rt")]
    texts = {it: read(it) for it in places}
    defined, fields = {}, {}
    every, parts = set(), set()
    for path, text in texts.items():
        if path.endswith(".antt"):
            here, there = definitions(text)
            every |= here
            parts |= there
    kept = {it for it in every if snake(it) == it}
    words = {snake(it) for it in every if "-" not in it} | kept
    for name in sorted(every):
        new = TAKEN.get(name) or snake(name)
        # a lemma that would have its function's name
        if name not in TAKEN and "-" in name and new != name and new in words:
            new += "_lem"
        if new != name:
            defined[name] = new
            if name in parts:
                fields[name] = new
    if argv == ["--list"]:
        for name in sorted(defined):
            print(name, defined[name])
        return 0
    bad = 0
    changed = {}
    for path, text in texts.items():
        reach = own_of(path, text, own)
        names = {it: defined[it] for it in reach if it in defined}
        bare = re.sub(r"--[^\n]*|//[^\n]*", "", text)
        words = parameters(text) if path.endswith(".rt") else set(re.findall(rf"(?<![\w.'-]){WORD}", bare))
        news = collections.Counter(names.values())
        for name, new in names.items():
            if (new in words and new not in names) or news[new] > 1:
                print(f"{os.path.relpath(path, root)}: {name} would be {new}, which stands there")
                bad += 1
        changed[path] = turned(text, names, fields, True)
    if bad:
        print(f"{bad} names fall together: nothing was written")
        return 1
    # the toolchain's own script turned some of our names in the code, and neither pages nor edits
    final = {defined.get(it, it) for it in every}
    loose = Respelled(defined, final)
    pages = [it for it in files(os.path.join(root, "docs"), ".md")] + [os.path.join(root, "README.md"), os.path.join(root, "rust", "README.md")]
    for path in pages:
        changed[path] = turned(read(path), loose, fields, False)
    for path in list(files(os.path.join(root, "tests", "wrong"), ".edit")) + list(files(os.path.join(root, "crates"), ".edit")):
        rows = read(path).split("\n")
        changed[path] = "\n".join(turned(it, loose, fields, bool(re.match(r"(old|new|twin): ", it))) for it in rows)
    for path, text in changed.items():
        if text != read(path):
            with open(path, "w", encoding="utf-8") as it:
                it.write(text)
    return 0


if __name__ == "__main__":
    sys.exit(main(sys.argv[1:]))
