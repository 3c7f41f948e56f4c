"""Tries the wrong programs and their twins (see wrong.sh): several crates at a time, the edits of one in turn."""
import concurrent.futures
import glob
import os
import re
import shutil
import subprocess
import sys
import tempfile

# What is copied of a crate: its text, and the library that was built of it.
PARTS = ("src", "specs", "proofs", "out/rlib")

# A line of the check that tells of an error: where, in which declaration if it knows one, and what is wrong.
ERROR = re.compile(r"^(?:\./)?(\S+?):\d+:\d+: error(\[[\w-]+\])?: (?:(`[^`]+`): )?(.*)", re.M)
# It only names what is not there: this is no fact about what the changed text means.
MISSING = re.compile(r"has no (?:`|field)|is not in scope|is no name|was rejected|was not admitted")
# What must not be the first that the check says: then it is a name that the edit took away.
ABSENT = re.compile(r"has no (?:`|field)")

# A goal that is left open, where no answer of ours could be tried.
OPEN = re.compile(r"^note: (\S+:\d+:\d+: it is not proved that .*)", re.M)


def verdict(status, said):
    """Proved, refused, unfit or another end of a check; and by what it is refused. Unfit is an edit that the checker
    cannot read, and one of which the proof only names what is not there any more."""
    if status == 0 and re.search(r"^logic=proved", said, re.M):
        return "proved", ""
    if status != 1:
        return f"exit status {status}", ""
    errors = ERROR.findall(said)
    unread = [code or file.startswith(("src/", "specs/")) and (not of or MISSING.search(what))
              for file, code, of, what in errors]
    unnamed = errors and ABSENT.search(errors[0][3])
    if any(unread) or unnamed or not re.search(r"^logic=not-proved", said, re.M):
        return "unfit", ""
    facts = [f"{file}: {of}: {what}" for file, _, of, what in errors if of and not MISSING.search(what)]
    facts += [] if errors else OPEN.findall(said)
    return ("refused", facts[0]) if facts else ("unfit", "")


def copy(work):
    """Copies all crates, to be edited there."""
    for folder in glob.glob("crates/*"):
        for part in PARTS:
            if os.path.isdir(f"{folder}/{part}"):
                shutil.copytree(f"{folder}/{part}", f"{work}/{folder}/{part}")
    shutil.copy("crates.txt", work)


def check(folder):
    """The verdict on a crate of a copy, and all that the check says."""
    ran = subprocess.run(["rt", "check", "--jobs", "1"], cwd=folder, stdin=subprocess.DEVNULL, stdout=subprocess.PIPE,
                         stderr=subprocess.STDOUT, text=True, errors="replace")
    return *verdict(ran.returncode, ran.stdout), ran.stdout


def attempt(folder, name, edit, line, wanted):
    """Whether the crate with the edit's LINE (new or twin) in the place of its old text has the verdict wanted."""
    lacks = [key for key in ("file", "old", line) if key not in edit]
    if lacks:
        print(f"wrong: {name} is a bad edit: it has no line {lacks[0]}")
        return False
    path = f"{folder}/{edit['file']}"
    with open(path) as file:
        text = file.read()
    if text.count(edit["old"]) != 1:
        print(f"wrong: {name} is a bad edit: its old text stands {text.count(edit['old'])} times in {edit['file']}")
        return False
    with open(path, "w") as file:
        file.write(text.replace(edit["old"], edit[line]))
    got, why, said = check(folder)
    with open(path, "w") as file:
        file.write(text)
    if got != wanted:
        shown = [row for row in said.splitlines() if "error" in row or OPEN.match(row)] or said.splitlines()[-3:]
        print("\n".join([f"wrong: {name} with its line '{line}' is {got}, and should be {wanted}:", *shown[:3]]))
    elif why:
        print(f"wrong: {name} is refused: {why[:160]}")
    return got == wanted


def wrong_programs(crate):
    """Tries the edits of a crate, and tells how many tests passed and failed."""
    with tempfile.TemporaryDirectory() as work:
        copy(work)
        folder = f"{work}/crates/{crate}"
        got, _, said = check(folder)
        if got != "proved":
            print("\n".join([f"wrong: {crate} is not proved as it is:", *said.splitlines()[-5:]]))
            return 0, 1
        results = []
        for path in sorted(glob.glob(f"tests/wrong/{crate}/*.edit")):
            rows = [row.split(": ", 1) for row in open(path).read().splitlines()]
            edit = {row[0]: row[1] for row in rows if row[0] in ("file", "old", "new", "twin")}
            name = f"{crate}/{os.path.basename(path)[:-5]}"
            results.append(attempt(folder, name, edit, "new", "refused"))
            results.append(attempt(folder, name, edit, "twin", "proved"))
        return results.count(True), results.count(False) + (not results)


def work_of(crate):
    """How much there is to check: the lines of its proofs for each edit."""
    files = glob.glob(f"crates/{crate}/**/*.antt", recursive=True)
    return sum(open(file).read().count("\n") for file in files) * len(os.listdir(f"tests/wrong/{crate}"))


# The longest come first, so that no processor waits for the last of them.
crates = sys.argv[1:] or sorted(os.listdir("tests/wrong"), key=work_of, reverse=True)
with concurrent.futures.ThreadPoolExecutor(os.cpu_count()) as pool:
    counts = list(pool.map(wrong_programs, crates))
passed, failed = (sum(count) for count in zip(*counts))
print(f"wrong: {passed} passed, {failed} failed")
raise SystemExit(1 if failed or not passed else 0)
