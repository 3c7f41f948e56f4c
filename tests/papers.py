"""Holds the pages to the tree (see papers.sh): names and files that they give, and what a promise rests on."""
import glob
import os
import re

CRATES = {line.split(":")[0].split()[0] for line in open("crates.txt") if ":" in line and not line.startswith("#")}
SPECS = {
    file[len("crates/"):-len(".antt")]: open(file).read()
    for file in glob.glob("crates/*/specs/*.antt")
    if not file.endswith("/Lib.antt")
}
CODE = {f: open(f).read() for f in glob.glob("crates/*/src/*.rt")}
EDITS = {os.path.basename(f)[:-5] for f in glob.glob("crates/*/must-fail/*.edit") + glob.glob("tests/wrong/*/*.edit")}

# Words of the toolchain and of the pages themselves.
OTHER = {"code", "requires", "ensures", "rt", "rt ci", "pool.now", "&mut", "&[u32]", "twin:"}

# The calls that a user makes, by their file; their contracts may rest on definitions of the reader's path alone.
CALLS = {
    "table/src/lib.rt": ["fresh", "lookup", "passes", "shape_fits"],
    "words/src/lib.rt": ["round_region"],
    "change/src/lib.rt": ["change", "put"],
    "change/src/tidying.rt": ["tidy"],
    "lookaside/src/lib.rt": ["check", "emptied", "flush_all", "flush_domain", "flush_region"],
    "gates/src/lib.rt": ["set_gate", "remove_gate", "no_gates", "call_stack", "fetch_step"],
    "owners/src/lib.rt": ["make_region", "pass_region", "give_export", "change_by"],
    "listing/src/lib.rt": ["list_runs"],
    "lines/src/lib.rt": ["parse", "blank_line", "feed", "last_line"],
    "rights_listing/src/serving.rt": ["serve", "serve_last"],
    "rights_listing/src/pages.rt": ["write_page"],
    "rights_listing/src/main.rt": ["hear_all", "show_all"],
    **{
        f"goleuthan/src/{name}.rt": re.findall(r"fn (gol_\w+)", open(f"crates/goleuthan/src/{name}.rt").read())
        for name in ("lib", "regions")
    },
}

# Such a call requires nothing: a state's words are lent as an array of their length. The one store is called by the
# loop alone, and the program's parts by the program.
NOT_BY_USERS = {"put", "serve", "serve_last", "write_page"}


def requires_some(name, said):
    """Whether the contract of a call requires anything."""
    return name not in NOT_BY_USERS and re.search(r"\brequires\b", said) is not None


def declared():
    """Every name that the tree declares: definitions, laws, fields; in code functions, types, variants, constants."""
    files = [f for kind in ("specs", "proofs") for f in glob.glob(f"crates/*/{kind}/**/*.antt", recursive=True)]
    antt = "\n".join(open(f).read() for f in files)
    code = "\n".join(CODE.values())
    names = set(re.findall(r"^\s*(?:abbrev |unfoldable )?(?:pub )?([^\s:(){}]+) :", antt, re.M))
    names |= set(re.findall(r"^\s*(?:pub )?(?:record|data) ([^\s:(){}]+)", antt, re.M))
    names |= set(re.findall(r"(?:fn|struct|enum|mod|const) (\w+)", code))
    names |= set(re.findall(r"^    ([A-Z]\w*)(?:\(|,| \{)", code, re.M))
    return names


DECLARED = declared()


def path_there(text):
    return any(os.path.exists(f"crates/{text}{end}") for end in ("", ".antt", ".rt"))


def word_known(text):
    return text in DECLARED or text in OTHER or text in EDITS


def known(text):
    """Whether a page may say `text` in code: a name of the tree, a wrong program, a file, or names put together."""
    if word_known(text) or "NAME" in text:
        return True
    if text.endswith("*"):
        return any(name.startswith(text[:-1]) for name in EDITS)
    if "/" in text:
        return path_there(text) if text.split("/")[0] in CRATES else os.path.exists(text)
    parts = re.findall(r"[^\s().,]+", text)
    if len(parts) < 2 or not any(word_known(part) for part in parts):
        return False
    return all(word_known(part) or len(part) == 1 for part in parts)


def unknown_names(text):
    faults = [f"`{name}` is not in the tree" for name in re.findall(r"`([^`]+)`", text) if not known(name)]
    paths = re.findall(r"[(\s]((?:" + "|".join(CRATES) + r")/(?:specs|proofs|src)(?:/\w+)?)", text)
    return faults + [f"there is no crates/{path}" for path in paths if not path_there(path)]


def promises(text):
    """Each name and file is in the tree, and each wrong program is named."""
    named = set(re.findall(r"`([a-z0-9_]+\*?)`", text))
    begins = tuple(name[:-1] for name in named if name.endswith("*"))
    silent = [edit for edit in sorted(EDITS) if edit not in named and not (begins and edit.startswith(begins))]
    return unknown_names(text) + [f"the wrong program {edit} is named nowhere" for edit in silent]


def imports(text, crate):
    """The files of definitions that a text uses, by the names that it takes from them."""
    taken = {}
    for other, file, names in re.findall(r"use Rattle\.([a-z_]+)\.specs\.(\w+)\.\{([^}]*)\}", text):
        for name in names.split(","):
            taken[name.split(" as ")[-1].strip()] = f"{other}/specs/{file}"
    return taken


def contract(text, name):
    """What stands between a function's head and its body."""
    found = re.search(rf"fn {name}\(.*?\n\{{\n", text, re.S)
    return found.group(0) if found else None


def reading(text):
    """Names are in the tree; a file of definitions is on the path or inner; nothing rests on an inner one."""
    inner = set(re.findall(r"`([a-z_]+/specs/\w+)`", " ".join(re.findall(r"\*Inner\*:[^.]*\.", text))))
    path = set(re.findall(r"`([a-z_]+/specs/\w+)`", text)) - inner
    faults = unknown_names(text)
    faults += [f"{file} is neither on the path nor marked inner" for file in sorted(set(SPECS) - path - inner)]
    for file in sorted(path & set(SPECS)):
        used = set(imports(SPECS[file], file.split("/")[0]).values())
        faults += [f"{file} is on the path and rests on {other}" for other in sorted(used & inner)]
    for file, names in CALLS.items():
        source = CODE[f"crates/{file}"]
        taken = imports(source, file.split("/")[0])
        for name in names:
            said = contract(source, name)
            if said is None:
                faults.append(f"there is no function {name} in {file}")
                continue
            if requires_some(name, said):
                faults.append(f"{name} in {file} has a requires")
            rests = {taken[word] for word in re.findall(r"[^\s(){}.,]+", said) if word in taken}
            faults += [f"the contract of {name} rests on {other}, which is inner" for other in sorted(rests & inner)]
    # of this repository: the library has some definitions in folders of that name
    of_ours = r"use Rattle\.(?:" + "|".join(CRATES) + r")\.proofs\."
    in_proofs = [f for f, said in [*SPECS.items(), *CODE.items()] if re.search(of_ours, said)]
    return faults + [f"{file} takes a definition from a proofs folder" for file in in_proofs]


def readme(text):
    """Its lines of C are those of an example that is built and run; its listing is that of a listing test."""
    example = open("examples/first_steps.c").read()
    shown = [line.strip() for line in text.splitlines() if re.match(r"    .*(gol_|GOL_)", line)]
    faults = [] if shown else ["no line of C is shown"]
    faults += [f"`{line}` is not in examples/first_steps.c" for line in shown if line not in example]
    listing = "".join("    " + line for line in open("tests/listing/paper.out"))
    if listing not in text:
        faults.append("the listing of examples/rights.txt is not shown")
    if open("examples/rights.txt").read() != open("tests/listing/paper.in").read():
        faults.append("examples/rights.txt is not the paper's example")
    return faults


def decisions(text):
    """Files of tests, scripts and docs that it names are there."""
    names = re.findall(r"`((?:tests|scripts|docs|rust|examples|include)/[\w./]+)`", text)
    return [f"there is no {name}" for name in names if not os.path.exists(name)]


def without(text, line):
    return "\n".join(row for row in text.splitlines() if line not in row)


PAGES = {"docs/PROMISES.md": promises, "docs/READING.md": reading, "README.md": readme, "docs/DECISIONS.md": decisions}
# A page that is wrong in one way must be found out.
WRONG = [
    ("docs/PROMISES.md", "names what is not there", lambda text: text + "\n`nobody-proved-this`\n"),
    ("docs/PROMISES.md", "leaves a wrong program out", lambda text: text.replace("`link_before_fill`", "")),
    ("docs/READING.md", "leaves a file of definitions out", lambda text: text.replace("`theory/specs/Walk`", "")),
    ("docs/READING.md", "marks inner what a promise rests on",
     lambda text: text.replace("*Inner*: ", "*Inner*: `change/specs/Cuts`, ", 1)),
    ("README.md", "shows a line of C that no example has", lambda text: text.replace("GOL_WRITE", "GOL_READ")),
    ("docs/DECISIONS.md", "names a file that is not there", lambda text: text + "\n`tests/nothing.sh`\n"),
]

passed, failed = 0, 0
for page, check in PAGES.items():
    faults = check(open(page).read())
    for fault in faults:
        print(f"papers: {page}: {fault}")
    passed, failed = (passed, failed + 1) if faults else (passed + 1, failed)
for page, what, make in WRONG:
    real = open(page).read()
    if make(real) != real and set(PAGES[page](make(real))) - set(PAGES[page](real)):
        passed += 1
    else:
        failed += 1
        print(f"papers: a {page} that {what} is not found out")
print(f"papers: {passed} passed, {failed} failed")
raise SystemExit(1 if failed else 0)
