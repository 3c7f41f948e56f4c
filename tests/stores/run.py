"""Holds the source to one loop of stores, and the rules to wrong and harmless sources (see tests/stores.sh)."""
import glob

from cases import HARMLESS, WRONG, edited
from rules import RULES
from source import House


def broken(texts):
    """The rules that a source breaks, each with what it says."""
    house = House(texts)
    told = {name: rule(house) for name, rule in RULES.items()}
    return {name: said for name, said in told.items() if said}


def judged(real, what, edits, is_right):
    """Whether the rules that an edited source breaks are the right ones, and what to say where they are not."""
    try:
        told = broken(edited(real, edits))
    except ValueError as reason:
        return False, f"a source that {what} cannot be made: {reason}"
    return is_right(told), f"a source that {what} is refused by {told or 'no rule'}"


def results():
    """Whether each rule, wrong source and harmless source is as it must be, and what to say where it is not."""
    real = {path: open(path).read() for path in glob.glob("crates/*/src/*.rt")}
    now = broken(real)
    for name in RULES:
        yield name not in now, f"{name}: {'; '.join(now.get(name, []))}"
    for what, rule, edits in WRONG:
        yield judged(real, what, edits, lambda told: told.get(rule) != now.get(rule))
    for what, edits in HARMLESS:
        yield judged(real, what, edits, lambda told: told == now)


all_told = list(results())
failed = [what for good, what in all_told if not good]
for line in failed:
    print("stores:", line)
print(f"stores: {len(all_told) - len(failed)} passed, {len(failed)} failed")
raise SystemExit(1 if failed or not all_told else 0)
