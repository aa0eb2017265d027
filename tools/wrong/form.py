"""How a wrong body is written down: wrong/CRATE/NAME.

    what it is, in plain words
    seen by: prover
    in: r2d2 fn pool::in_line::Shared::settle
    old: words of the function
    new: what stands in their place

`seen by: test FOLDER NAME` names a test of tests/FOLDER, `seen by: refusal NAME` one of tests/stage where something is refused, and
`seen by: schedule NAME` a scenario, with `counted` behind it where a counted pool plays it, and `points` where locked instructions are
points: one or several such lines. `seen by: nobody` is of what does no harm: the first line says why. `in:`, `old:` and `new:` may come
again; without an `in:` of its own a change is in the function of the one before. `in: mod pool::in_line` is outside of all functions. A
text of several lines begins on the next line and is set in by four spaces.

A change is found by words, whatever the spaces and comments between them. What old and new have in common at their ends tells where it
is, and is left out again where it has changed. Names may have changed: the match is taken whose names are the nearest, where that is one
alone. Where its function is gone, others of its name are looked
through, then those that stood beside it, then all of the crate's.
"""
import difflib
import functools
import os
import re

FN = re.compile(r"^(\s*)(?:pub(?:\([^)]*\))? )?(?:const )?(?:unsafe )?fn (\w+)")
TOKEN = re.compile(r"""
    (?P<space>\s+|//[^\n]*|/\*.*?\*/)
  | (?P<text>b?"(?:\\.|[^"\\])*"|b?'(?:\\.[^']*|[^'\\])'|'\w+)
  | (?P<name>[A-Za-z_]\w*)
  | (?P<number>\d[\w.]*(?<!\.))
  | (?P<mark>->|=>|::|\.\.=|\.\.|<=|>=|==|!=|&&|\|\||[^\w\s])
""", re.X | re.S)
# A change is known by no fewer words than this, if it has them.
FEWEST = 4
KEYWORDS = set("""as break const continue crate else enum extern false fn for if impl in let loop match mod move mut pub ref return self Self
static struct super trait true type unsafe use where while ghost requires ensures invariant""".split())
SEEN = ("prover", "test", "refusal", "schedule", "nobody")


class Token:
    __slots__ = ("kind", "text", "start", "end", "key")

    def __init__(self, kind, text, start, end, before):
        self.kind, self.text, self.start, self.end = kind, text, start, end
        # A field is another name than a local that is called the same.
        self.key = "." + text if kind == "name" and before == "." else text

    def may_be_renamed(self):
        return self.kind == "name" and self.text not in KEYWORDS and not self.text[0].isupper()


def tokens_of(text, start=0, end=None):
    """The words of a text, without spaces and comments. A comma before a closing bracket is no word."""
    found = []
    for it in TOKEN.finditer(text, start, len(text) if end is None else end):
        if it.lastgroup == "space":
            continue
        if found and found[-1].text == "," and it[0] in ")]}":
            found.pop()
        found.append(Token(it.lastgroup, it[0], it.start(), it.end(), found[-1].text if found else ""))
    return found


class Function:
    """A function of a file: its lines, and the end of its path as the prover names it."""

    def __init__(self, file, lines, at):
        indent, self.name = FN.match(lines[at]).groups()
        end = next((row for row in range(at, len(lines)) if lines[row].rstrip() == indent + "}"), at)
        self.is_whole = end > at or lines[at].rstrip().endswith("}")
        while at and lines[at - 1].lstrip().startswith(("#[", "//")):
            at -= 1
        self.file, self.first, self.last = file, at + 1, end + 1
        # (an impl may stand in another module than its type, by whose module the prover names it)
        self.owner, self.types = owner_of(lines, at, len(indent))
        self.path = ([self.owner + self.types] if self.owner else module_of(file)) + [self.name]

    def place(self):
        """Where it stands, as `in:` says it."""
        return "::".join([*module_of(self.file), *([self.owner] if self.owner else []), self.name])

    def span(self, text):
        starts = starts_of(text)
        return starts[self.first - 1], starts[self.last]

    def holds(self, file, row):
        if file.startswith("proofs/"):
            # (an impl of some types alone has these behind its own, as in `Shared+PoolState`)
            folders = [it.partition("+")[0] for it in file.split("/")[1:-1]]
            path = [it.partition("+")[0] for it in self.path]
            return folders == path or bool(self.owner) and folders[-len(path) :] == path
        return file == self.file and self.first <= row <= self.last


@functools.lru_cache(maxsize=64)
def starts_of(text):
    """Where each line begins, and the end."""
    found = [0]
    for line in text.split("\n"):
        found.append(found[-1] + len(line) + 1)
    return found


def module_of(file):
    return [it for it in file[len("src/") : -len(".rt")].split("/") if it not in ("lib", "main")]


def owner_of(lines, at, indent):
    """The type of the impl round a function, with its trait behind it, as the prover writes them, and the types that the impl is for alone;
    nothing for a free function."""
    for row in range(at, -1, -1):
        found = re.match(r"\s*(?:unsafe )?(?:impl\b(.*)|(?:pub )?trait (\w+))", lines[row])
        if not found or len(lines[row]) - len(lines[row].lstrip()) >= indent:
            continue
        if found[2]:
            return found[2], ""
        head = " ".join([found[1], *lines[row + 1 : row + 12]]).partition("{")[0]
        trait, _, kind = without_parameters(head).rpartition(" for ")
        words = [it.split("::")[-1].strip(" &") for it in (kind.split(" where ")[0], trait)]
        argument = re.search(r"\bFrom<(?:\w+::)*(\w+)>", head)
        return words[0] + words[1] + (argument[1] if trait and argument else ""), types_of(head, words[0])
    return "", ""


def types_of(head, name):
    """The types that an impl is for alone, as in `Shared+PoolState+P+C`; none where it is for all."""
    inner = list(inside(head))
    mine = next((it for at, it in inner if re.search(rf"\b{name}\s*$", head[:at])), "")
    own = next((it for at, it in inner if not head[:at].strip()), "")
    parameters = {it.strip() for it in re.split(r"[,+:]", without_parameters(own))}
    is_special = any(not it.strip().startswith("'") and it.strip() not in parameters for it in mine.split(",") if it.strip())
    return "".join("+" + it for it in re.findall(r"(?<!')\b[A-Za-z]\w*", re.sub(r"\w+::", "", mine))) if is_special else ""


def inside(head):
    """Where each outermost `<` stands in the head of an impl, and what is between it and its `>`."""
    depth = start = 0
    for at, it in enumerate(head):
        if it == "<":
            start = start if depth else at
            depth += 1
        elif it == ">" and head[at - 1] != "-":
            depth -= 1
            if not depth:
                yield start, head[start + 1 : at]


def without_parameters(text):
    depth, kept = 0, ""
    for before, it in zip(" " + text, text):
        depth += it == "<"
        kept += it if not depth else ""
        depth -= it == ">" and before != "-"
    return " ".join(kept.split())


@functools.lru_cache(maxsize=None)
def functions_of(file, text):
    lines = text.split("\n")
    found = [Function(file, lines, row) for row, line in enumerate(lines) if FN.match(line)]
    return [it for it in found if it.is_whole]


class Match:
    """Where words stand among others, and which names have changed: the more, and the less like, the farther it is."""

    def __init__(self, at, names):
        self.at, self.names = at, names
        self.distance = sum(unlike(name, other) for name, other in names.items())


@functools.lru_cache(maxsize=None)
def unlike(name, other):
    return round(1.1 - difflib.SequenceMatcher(None, name, other).ratio(), 6)


def nearest(found, distance_of):
    """The one of them that is nearer than the others, if there is one."""
    least = min(map(distance_of, found), default=0)
    best = [it for it in found if distance_of(it) == least]
    return best[0] if len(best) == 1 else None


def match_at(words, at, old):
    """The names that have changed where `old` stands at a place, or None where it does not."""
    names, back = {}, {}
    for it, other in zip(old, words[at : at + len(old)]):
        key, now = it.key, other.key
        is_alike = (key[0] == ".") == (now[0] == ".")
        may_be = key == now or is_alike and it.may_be_renamed() and other.may_be_renamed()
        if may_be and names.get(key, now) == now and back.get(now, key) == key:
            names[key], back[now] = now, key
        else:
            return None
    return {name: other for name, other in names.items() if name != other}


def matches(words, old):
    found = ((at, match_at(words, at, old)) for at in range(len(words) - len(old) + 1))
    return [Match(at, names) for at, names in found if names is not None]


def is_told(match, old):
    """Whether enough of the words is as it was to know them again."""
    kept = sum(it.key not in match.names for it in old)
    return 2 * kept >= len(old)


class Unclear(Exception):
    """Where words stand in several places, each as near as another."""


class Change:
    """Words of a place, and what stands there in their stead."""

    def __init__(self, place, old, new):
        self.place, self.old, self.new = place, old, new
        before, after = tokens_of(old), tokens_of(new)
        same = next((at for at, (it, other) in enumerate(zip(before, after)) if it.text != other.text), min(len(before), len(after)))
        most = min(len(before), len(after)) - same
        tail = next((at for at in range(most) if before[-1 - at].text != after[-1 - at].text), most)
        self.before, self.head, self.tail = before, same, tail
        # What is put in, with the spaces round it as they were written.
        start = after[same - 1].end if same else 0
        end = after[len(after) - tail].start if tail else len(new)
        self.put_in = new[start:end]

    def forms(self):
        """How many words at its ends may be left out, all that are there first. Of a few words none is left out."""
        yield 0, 0
        for left in range(1, max(self.head, self.tail) + 1):
            left_out, right_out = min(left, self.head), min(left, self.tail)
            if len(self.before) - left_out - right_out >= FEWEST:
                yield left_out, right_out

    def find(self, text, spans):
        """Where it stands in one of the spans of a text: the start, the end and the match. None where it does not, and Unclear where it may
        be several."""
        for left_out, right_out in self.forms():
            old = self.before[left_out : len(self.before) - right_out]
            found = []
            for start, end in spans:
                words = tokens_of(text, start, end)
                found += [(it, words) for it in matches(words, old) if is_told(it, old)]
            if found:
                best = nearest(found, lambda it: it[0].distance)
                if best is None:
                    raise Unclear
                return self.place_of(*best, left_out, len(old), right_out)
        return None

    def place_of(self, match, words, left_out, length, right_out):
        """The characters that it takes the place of."""
        first, last = match.at + self.head - left_out, match.at + length - (self.tail - right_out)
        start = words[first - 1].end if first > match.at else words[match.at].start
        end = words[last].start if last < match.at + length else words[last - 1].end if last > first else start
        return start, end, match


def renamed(text, names):
    """A text with the names that have changed."""
    made, at = [], 0
    for it in tokens_of(text):
        if it.kind == "name" and it.key in names:
            made += [text[at : it.start], names[it.key].lstrip(".")]
            at = it.end
    return "".join([*made, text[at:]])


def sources(folder):
    """The files of src/ of a crate, by their names."""
    found = {}
    for place, _, files in os.walk(os.path.join(folder, "src")):
        for file in files:
            if file.endswith(".rt"):
                path = os.path.join(place, file)
                with open(path, encoding="utf-8") as it:
                    found[os.path.relpath(path, folder)] = it.read()
    return found


class Crates:
    """The sources of a repository's crates, as they are asked for."""

    def __init__(self, top):
        self.top, self.texts = top, {}

    def of(self, crate):
        if crate not in self.texts:
            self.texts[crate] = sources(os.path.join(self.top, "crates", crate))
        return self.texts[crate]

    def with_spots(self, spots):
        """The files that these change, by crate and name, as they are then."""
        made = {}
        # (the last of a file first, so that those before it stay where they are)
        for it in sorted(spots, key=lambda it: -it.start):
            text = made.get((it.crate, it.file), self.of(it.crate)[it.file])
            made[it.crate, it.file] = text[: it.start] + it.text + text[it.end :]
        return made


class Spot:
    """A part of a file, and what stands there in its stead; the function that it is in, None outside of all."""

    def __init__(self, crate, file, function, start, end, text):
        self.crate, self.file, self.function = crate, file, function
        self.start, self.end, self.text = start, end, text

    def is_apart(self, other):
        return (self.crate, self.file) != (other.crate, other.file) or self.end < other.start or other.end < self.start


class Place:
    """What `in:` says: a crate, and a function of it by its path, or a module's file."""

    def __init__(self, words):
        self.crate, self.kind, path = words.split()
        self.path = [] if path == "crate" else path.split("::")
        if self.kind not in ("fn", "mod"):
            raise ValueError(f"in: CRATE fn PATH, or in: CRATE mod PATH, and not {words}")

    def looks(self, texts):
        """Where to look, the likeliest first: each a list of files with the spans in them."""
        if self.kind == "mod":
            yield [(file, [(0, len(text))], None) for file, text in texts.items() if module_of(file) == self.path]
            return
        every = [it for file, text in texts.items() for it in functions_of(file, text)]
        is_here = lambda it: it.place().split("::")[:-1] == self.path[:-1]
        for chosen in (lambda it: is_here(it) and it.name == self.path[-1], lambda it: it.name == self.path[-1], is_here, lambda it: True):
            yield [(it.file, [it.span(texts[it.file])], it) for it in every if chosen(it)]


    def is_unlike(self, function):
        """How far the name of a function is from the one that is meant."""
        return unlike(self.path[-1], function.name) if function and function.name != self.path[-1] else 0


class Body:
    """A wrong body: what it says of itself, who is to see it, and its changes."""

    def __init__(self, path):
        self.crate, self.name, self.path = os.path.basename(os.path.dirname(path)), os.path.basename(path), path
        with open(path, encoding="utf-8") as file:
            lines = file.read().split("\n")
        self.what, self.seen_by, self.changes = lines[0], [], []
        place = old = None
        for key, text in fields_of(lines[1:], path):
            if key == "seen by":
                self.seen_by.append(text.split())
            elif key == "in":
                place = Place(text)
            elif key == "old":
                old = text
            elif place is None or old is None:
                raise ValueError(f"{path}: `in:` and `old:` come before `new:`")
            else:
                self.changes.append(Change(place, old, text))
        if not self.what or not self.changes or not self.seen_by or any(it[0] not in SEEN for it in self.seen_by):
            raise ValueError(f"{path}: it says what it is, who is to see it, and where it changes what")

    def is_seen_by(self, who):
        return any(it[0] == who for it in self.seen_by)

    def names(self, who):
        """The tests, or the like, that are to see it."""
        return [it[1:] for it in self.seen_by if it[0] == who]

    def spots(self, crates):
        """Where it changes what: a Spot for each change; or why it cannot be made."""
        found = []
        for change in self.changes:
            at = self.look(change, crates.of(change.place.crate))
            if at is None:
                return None, f"{' '.join(change.old.split())[:80]}: not found, or in several places"
            file, function, start, end, match = at
            found.append(Spot(change.place.crate, file, function, start, end, renamed(change.put_in, match.names)))
        return found, None

    def astray(self, spots):
        """Where it changes what, if that is in another function than `in:` says, since that one is gone or reads otherwise."""
        for change, spot in zip(self.changes, spots):
            where, wanted = spot.function.place() if spot.function else "", "::".join(change.place.path)
            if change.place.kind == "fn" and where != wanted:
                yield f"{wanted} is not there, or reads otherwise: it changes {where or spot.file}"

    @staticmethod
    def look(change, texts):
        for places in change.place.looks(texts):
            try:
                found = [(file, function, *at) for file, spans, function in places if (at := change.find(texts[file], spans))]
            except Unclear:
                return None
            if found:
                return nearest(found, lambda it: it[-1].distance + change.place.is_unlike(it[1]))
        return None


def fields_of(lines, path):
    """The fields of a file, each with its text."""
    key, text = None, []
    for line in lines:
        found = re.match(r"(in|old|new|seen by):(?: (.*))?$", line)
        if found:
            if key:
                yield key, "\n".join(text)
            key, text = found[1], [found[2]] if found[2] else []
        elif line.startswith("    ") or not line:
            text += [line[4:]] if key else []
        else:
            raise ValueError(f"{path}: {line}")
    if key:
        yield key, "\n".join(text).rstrip("\n")


def bodies(top):
    """All that there are, by their crates and names."""
    folder = os.path.join(top, "wrong")
    crates = sorted(it for it in os.listdir(folder) if os.path.isdir(os.path.join(folder, it)))
    return [Body(os.path.join(folder, crate, name)) for crate in crates for name in sorted(os.listdir(os.path.join(folder, crate)))]
