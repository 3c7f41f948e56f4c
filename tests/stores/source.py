"""Reads a source of Rattle: its functions, and what each does with a name."""
import re

TOKEN = re.compile(r"[^\W\d]\w*|\d\w*|::|->|=>|<<=|>>=|[-+*/%|&^=!<>]=|\.\.=?|\S")
ASSIGNS = re.compile(r"[^=!<>]?=|<<=|>>=")
OPEN, CLOSE = "([{", ")]}"


def tokens_of(text):
    """The tokens of a text without its comments, strings and characters."""
    text = re.sub(r"//[^\n]*", " ", text)
    text = re.sub(r'"(?:\\.|[^"\\])*"', " STRING ", text)
    text = re.sub(r"b?'(?:\\.|[^'\\])'", " 0 ", text)
    return TOKEN.findall(text)


def closing(tokens, i):
    """Where the bracket at `i` is closed."""
    depth = 0
    for k in range(i, len(tokens)):
        depth += (tokens[k] in OPEN) - (tokens[k] in CLOSE)
        if depth == 0:
            return k
    raise SystemExit(f"stores: a bracket is not closed after {tokens[i:i + 9]}")


def opening(tokens, i):
    """Where the bracket that is open at `i` was opened, or -1."""
    depth = 0
    for k in range(i - 1, -1, -1):
        depth += (tokens[k] in CLOSE) - (tokens[k] in OPEN)
        if depth < 0:
            return k
    return -1


def past_generics(tokens, i):
    """Where the parameters of a function begin after its name: what it is generic over stands between, a call's type
    with brackets of its own among it."""
    depth = 0
    while depth or tokens[i] != "(":
        depth += (tokens[i] == "<") - (tokens[i] == ">")
        i += 1
    return i


def split(tokens):
    """The parts between commas that stand in no bracket."""
    parts, depth = [[]], 0
    for token in tokens:
        depth += (token in OPEN) - (token in CLOSE)
        if token == "," and depth == 0:
            parts.append([])
        else:
            parts[-1].append(token)
    return [part for part in parts if part]


def named_type(part):
    """A parameter's name and type; `self` has none, and is told with all that stands before it."""
    if ":" not in part:
        return part[-1], part
    colon = part.index(":")
    return part[colon - 1], part[colon + 1:]


class Function:
    """A function: its crate, name, parameters with their types, and the tokens of its body."""

    def __init__(self, tokens, i):
        self.name, self.begin = tokens[i + 1], i
        while tokens[self.begin - 1] in ("pub", "extern", "STRING"):
            self.begin -= 1
        self.public = "pub" in tokens[self.begin:i]
        self.exported = "extern" in tokens[self.begin:i]
        at = past_generics(tokens, i + 2)
        k = closing(tokens, at)
        self.parameters = dict(named_type(part) for part in split(tokens[at + 1:k]))
        k += 1
        while tokens[k] not in ("{", ";"):
            k = closing(tokens, tokens.index("{", k)) if tokens[k] in ("ghost", "requires", "ensures") else k
            k = closing(tokens, k) if tokens[k] in ("(", "[") else k
            k += 1
        # A trait's function has no body.
        self.end = closing(tokens, k) if tokens[k] == "{" else k
        self.body = tokens[k + 1:self.end]

    def lent(self):
        """The parameters whose words it may write; those of bytes, marks, lines and texts are none of the pool."""
        others = ("& mut [ u8", "& mut [ bool", "& mut LineSoFar", "& mut fmt :: Formatter <")
        return [name for name, kind in self.parameters.items()
                if "mut" in kind and not " ".join(kind).startswith(others)]


class House:
    """The functions of each crate, and the tokens that stand outside of them."""

    def __init__(self, texts):
        self.functions, self.outside = {}, {}
        for path, text in sorted(texts.items()):
            crate, tokens = path.split("/")[1], tokens_of(text)
            functions, outside = self.functions.setdefault(crate, []), self.outside.setdefault(crate, [])
            i = past = 0
            while i < len(tokens):
                if tokens[i] == "fn":
                    function = Function(tokens, i)
                    functions.append(function)
                    outside += tokens[past:function.begin]
                    i = past = function.end
                i += 1
            outside += tokens[past:]

    def lent(self, crate):
        return {f.name: f.lent() for f in self.functions[crate] if f.lent()}

    def named(self, crate, name):
        """The one function of a name."""
        found = [f for f in self.functions[crate] if f.name == name]
        return found[0] if len(found) == 1 else None


def path_before(body, i):
    """The name, with its modules, that ends before `i`: what is called there."""
    path = []
    while i > 0 and (re.fullmatch(r"\w+", body[i - 1]) if len(path) % 2 == 0 else body[i - 1] == "::"):
        i -= 1
        path.insert(0, body[i])
    return "".join(path)


def use(body, i):
    """What is done with the name at `i`."""
    lent = body[max(0, i - 2):i] == ["&", "mut"]
    shown = not lent and i > 0 and body[i - 1] == "&"
    first = i - 2 if lent else i - 1 if shown else i
    if i > 0 and body[i - 1] == "let" or body[max(0, i - 2):i] == ["let", "mut"]:
        return "new"
    past = closing(body, i + 1) + 1 if body[i + 1:i + 2] == ["["] else i + 1
    after = body[past] if past < len(body) else ""
    at = opening(body, i)
    argument = first > 0 and body[first - 1] in "(," and after in (",", ")") and body[at] == "("
    called = body[past + 1] if after == "." and body[past + 2:past + 3] == ["("] else ""
    if called:
        return "length" if (past, called) == (i + 1, "len") else f"{'part' if past > i + 1 else 'whole'}.{called}"
    if past > i + 1 and ASSIGNS.fullmatch(after):
        return "store" if after == "=" and first == i else "changing store"
    if past > i + 1:
        return f"part to {path_before(body, at)}" if lent and argument else "read"
    if argument:
        return ("lent to " if lent else "shown to " if shown else "to ") + path_before(body, at)
    return "other use"


def uses(body, name):
    """All that is done with a name, which is no field, no part of a path and no module."""
    places = [i for i, token in enumerate(body) if token == name and body[i + 1:i + 2] != ["::"]]
    return [use(body, i) for i in places if i == 0 or body[i - 1] not in (".", "::")]


def assigned(body):
    """By what each word of a slice, or what a reference leads to, is assigned."""
    found = []
    for i, token in enumerate(body):
        of = body[opening(body, i) - 1] if token == "]" else ""
        after = body[i + 1] if i + 1 < len(body) else ""
        if (of in ("]", ")") or re.fullmatch(r"\w+", of)) and ASSIGNS.fullmatch(after):
            found.append(after)
        if token == "*" and i > 0 and body[i - 1] in (";", "{", "}"):
            found.append("*")
    return found
