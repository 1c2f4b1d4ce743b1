"""Reads the sources of this repository as text, for the programs beside it: the items of a `.rt`
file with their docs and contracts, the public items of a crate, the definitions of an `.antt` file.

It is no compiler. It knows the layout that `rt fmt` gives, and sees no item that a macro writes.
"""

import bisect
import functools
import glob
import os
import re
from dataclasses import dataclass, field

TOP = os.path.dirname(os.path.dirname(os.path.abspath(__file__)))
# Comments, texts and characters: their brackets and words are no code.
NO_CODE = re.compile(
    r"""//[^\n]*|/\*.*?\*/|\bb?r(#*)".*?"\1|b?"(?:\\.|[^"\\])*"|b?'(?:\\[^']+|[^'\\\n])'""",
    re.S,
)
SPACES = re.compile(r"\s*")
OPENING = re.compile(r"[(\[{;]")
ATTRIBUTE = re.compile(r"#!?\[")
CLAUSE = re.compile(r"\b(requires|ensures)(\*?)\s*(\w*)\s*$")
HEAD = re.compile(
    r"(?P<visible>pub(?:\([a-z]+\))?\s+)?(?:unsafe\s+|const\s+(?=fn))?"
    r"(?P<kind>ghost|fn|struct|enum|trait|impl|mod|use|const|type|static)\b\s*(?P<name>\w*)"
)


def files(*patterns):
    """Returns the paths of the files that have one of the forms, sorted. `out/` has none."""
    found = (it for form in patterns for it in glob.glob(form, root_dir=TOP, recursive=True))
    return sorted(it for it in set(found) if "/out/" not in it)


@functools.cache
def text_of(path):
    with open(f"{TOP}/{path}", encoding="utf-8") as it:
        return it.read()


@functools.cache
def source_of(path):
    return Source(path)


class Source:
    """A `.rt` file: its text, and the same with blanks in place of what is no code."""

    def __init__(self, path):
        self.path, self.text = path, text_of(path)
        self.code = NO_CODE.sub(lambda it: re.sub(r"[^\n]", " ", it.group()), self.text)
        self.breaks = [it.start() for it in re.finditer("\n", self.text)]
        self.closing = {}
        opened = []
        for it in re.finditer(r"[(\[{}\])]", self.code):
            if it.group() in "([{":
                opened.append(it.start())
            elif opened:
                self.closing[opened.pop()] = it.start()

    def line(self, at):
        """Returns the number of the line of an offset."""
        return bisect.bisect_left(self.breaks, at) + 1

    def skip_spaces(self, at):
        return SPACES.match(self.code, at).end()

    def clauses(self):
        """Gives where each `requires` and `ensures` begins and ends, also those of closures."""
        for it in re.finditer(r"\b(?:requires|ensures)\*?\s*\w*\s*\{", self.code):
            yield it.start(), self.closing[it.end() - 1] + 1


@dataclass
class Clause:
    """A `requires` or an `ensures` of a function."""

    kind: str
    name: str
    start: int
    end: int


@dataclass
class Item:
    """An item of a file. Its docs and its attributes are before `start`; `body` is the offset of
    the brace of its body, or -1."""

    source: Source
    kind: str
    name: str
    is_public: bool
    docs: list
    attributes: list
    start: int
    end: int
    body: int = -1
    clauses: list = field(default_factory=list)

    @property
    def line(self):
        return self.source.line(self.start)

    @property
    def head(self):
        """Returns its declaration without its body and its contract."""
        stop = self.clauses[0].start if self.clauses else self.body if self.body >= 0 else self.end
        return self.source.text[self.start : stop].rstrip().rstrip(";")

    def items(self):
        """Gives the items in its braces."""
        if self.body >= 0:
            yield from items(self.source, self.body + 1, self.source.closing[self.body])


def docs_in(source, start, end):
    """Returns the lines of the doc comment between two offsets, without their slashes."""
    lines = (it.strip() for it in source.text[start:end].split("\n"))
    return [it[3:].removeprefix(" ") for it in lines if it.startswith("///")]


def attributes_at(source, at):
    """Returns the attributes at an offset, and the offset of what is after them."""
    found = []
    while it := ATTRIBUTE.match(source.code, at):
        stop = source.closing[it.end() - 1] + 1
        found.append(source.text[at:stop])
        at = source.skip_spaces(stop)
    return found, at


def clause_before(source, start, brace):
    """Returns the clause whose braces begin at an offset, or None where these are a body."""
    it = CLAUSE.search(source.code, start, brace)
    return it and Clause(it.group(1), it.group(3), it.start(), source.closing[brace] + 1)


def bounds(source, kind, at, end):
    """Returns the offset of an item's body, the end of the item, and its clauses."""
    clauses, start = [], at
    while it := OPENING.search(source.code, at, end):
        sign, at = it.group(), it.start()
        if sign == ";":
            return -1, at + 1, clauses
        if sign == "{":
            clause = clause_before(source, start, at) if kind == "fn" else None
            if clause:
                clauses.append(clause)
                start = clause.end
            elif kind not in ("use", "const", "type", "static", "ghost"):
                return at, source.closing[at] + 1, clauses
        at = source.closing[at] + 1
    return -1, end, clauses


def items(source, start, end):
    """Gives the items between two offsets of a file, in order."""
    at = source.skip_spaces(start)
    while at < end:
        begin, (attributes, at) = start, attributes_at(source, at)
        head = HEAD.match(source.code, at)
        kind, name = (head.group("kind"), head.group("name")) if head else ("macro", "")
        is_public = bool(head) and (head.group("visible") or "").strip() == "pub"
        body, start, clauses = bounds(source, kind, at, end)
        docs = docs_in(source, begin, at)
        yield Item(source, kind, name, is_public, docs, attributes, at, start, body, clauses)
        at = source.skip_spaces(start)


def all_items(source):
    """Gives all items of a file, also those in braces of others."""
    waiting = list(items(source, 0, len(source.code)))
    while waiting:
        item = waiting.pop(0)
        yield item
        if item.kind in ("impl", "trait", "mod"):
            waiting = [*item.items(), *waiting]


@dataclass
class ImplParts:
    """What an `impl` is of and for: the trait, or "", the type, and the path of the type."""

    trait: str
    self_type: str
    path: tuple


def impl_parts(item):
    head = " ".join(item.source.code[item.start : item.body].split()).removeprefix("impl")
    depth, cuts = 0, []
    for it in re.finditer(r"<|(?<![-=])>| for | where ", head):
        depth += (it.group() == "<") - (it.group() == ">")
        if depth == 0:
            cuts.append(it)
    start = cuts[0].end() if head.startswith("<") else 0
    stop = next((it.start() for it in cuts if it.group() == " where "), len(head))
    middle = next((it for it in cuts if it.group() == " for " and it.start() < stop), None)
    trait = head[start : middle.start()].strip() if middle else ""
    self_type = head[middle.end() if middle else start : stop].strip()
    bare = re.sub(r"^(&('\w+ )?(mut )?)+", "", self_type)
    path = tuple(it.strip() for it in bare.partition("<")[0].split("::"))
    return ImplParts(trait, self_type, path)


def parts(item):
    """Gives the doc and the text of each field of a struct, or of each variant of an enum."""
    source, start, depth = item.source, item.body + 1, 0
    at, end = start, source.closing[item.body]
    while at < end:
        sign = source.code[at]
        if sign in "([{":
            at = source.closing[at]
        depth += (sign == "<") - (sign == ">" and source.code[at - 1] not in "-=")
        at += 1
        if (sign == "," and depth == 0) or at == end:
            _, first = attributes_at(source, source.skip_spaces(start))
            if text := source.text[first:at].strip().rstrip(","):
                yield docs_in(source, start, first), text
            start = at


# ---- crates and their public items


class Module:
    """A module of a crate: its items, the modules in it, and the names that it uses."""

    def __init__(self, crate, path, source, found):
        self.crate, self.path, self.source, self.parent = crate, path, source, None
        self.items, self.modules, self.uses = [], {}, []
        for item in found:
            if item.kind == "mod":
                self.add_module(item)
            elif item.kind == "use":
                text = source.code[item.start : item.end]
                path_text = text.partition("use")[2].strip().rstrip(";")
                self.uses += [(item, *it) for it in used_paths(path_text)]
            else:
                self.items.append(item)

    def add_module(self, item):
        path = (*self.path, item.name)
        if item.body >= 0:
            module = Module(self.crate, path, self.source, item.items())
        else:
            module = Module.of_file(self.crate, path)
        module.parent, module.is_public, module.item = self, item.is_public, item
        self.modules[item.name] = module

    @staticmethod
    def of_file(crate, path):
        source = source_of(f"crates/{crate}/src/{'/'.join(path)}.rt")
        return Module(crate, path, source, items(source, 0, len(source.code)))

    def source_items(self, source):
        """Gives the items of the modules that a file has."""
        for module in self.within():
            if module.source is source:
                yield from module.items

    def within(self):
        """Gives the module and all modules in it."""
        yield self
        for it in self.modules.values():
            yield from it.within()


def used_paths(text):
    """Gives the name and the path of each leaf of what follows `use`."""
    brace = text.find("{")
    if brace < 0:
        path, _, other = text.partition(" as ")
        path = tuple(re.sub(r"\s", "", path).split("::"))
        if path[-1] == "self":
            path = path[:-1]
        yield (other.strip() or path[-1]), path
        return
    front = tuple(it for it in re.sub(r"\s", "", text[:brace]).split("::") if it)
    for leaf in split_leaves(text[brace + 1 : text.rindex("}")]):
        for name, path in used_paths(leaf):
            yield (front[-1] if name == "self" else name), (*front, *path)


def split_leaves(text):
    """Gives the parts between the commas that are in no brace."""
    depth, start = 0, 0
    for at, sign in enumerate([*text, ","]):
        depth += (sign == "{") - (sign == "}")
        if sign == "," and depth == 0:
            if leaf := text[start:at].strip():
                yield leaf
            start = at + 1


class Sources:
    """The crates of `crates.txt`, each read when it is asked for."""

    def __init__(self):
        self.names = crate_names()
        self.roots = {}

    def crate(self, name):
        if name not in self.roots:
            root = "lib" if os.path.exists(f"{TOP}/crates/{name}/src/lib.rt") else "main"
            source = source_of(f"crates/{name}/src/{root}.rt")
            self.roots[name] = Module(name, (), source, items(source, 0, len(source.code)))
        return self.roots[name]

    def resolve(self, module, path, seen=()):
        """Returns the module, or the pair of a module and its item, that a path names; None where
        it is none of this repository."""
        if (module.crate, module.path, path) in seen:
            return None
        seen = (*seen, (module.crate, module.path, path))
        at, rest = self.start(module, path)
        while rest and isinstance(at, Module):
            at, rest = self.look_up(at, rest[0], seen), rest[1:]
        return at

    def start(self, module, path):
        """Returns where a path begins, and what is left of it."""
        first = path[0]
        if first == "crate":
            return self.crate(module.crate), path[1:]
        if first == "self":
            return self.start(module, path[1:]) if path[1:2] == ("super",) else (module, path[1:])
        if first == "super":
            return self.start(module.parent, ("self", *path[1:]))
        if first in self.names and first not in module.modules:
            return self.crate(first), path[1:]
        return module, path

    def look_up(self, module, name, seen):
        if name in module.modules:
            return module.modules[name]
        for item in module.items:
            if item.name == name and item.kind not in ("impl", "ghost", "macro"):
                return module, item
        for _, used, path in module.uses:
            if used == name:
                return self.resolve(module, path, seen)
        for _, used, path in module.uses:
            if used == "*" and (found := self.resolve(module, (*path[:-1], name), seen)):
                return found
        return None

    def public(self, module, path=()):
        """Gives the path, the module and the item of each public item of a module, as the crates
        above see it."""
        for item in module.items:
            if item.is_public and item.kind not in ("ghost", "impl"):
                yield (*path, item.name), module, item
        for name, inner in module.modules.items():
            if inner.is_public:
                yield from self.public(inner, (*path, name))
        for item, name, target in module.uses:
            if item.is_public:
                own = () if name == "*" else (name,)
                found = self.resolve(module, target[:-1] if name == "*" else target)
                if isinstance(found, Module):
                    yield from self.public(found, (*path, *own))
                elif found:
                    yield (*path, name), *found

    @functools.cache
    def impls(self, crate):
        """Returns the `impl`s of a crate by the ids of the items that they are for, each with its
        item."""
        found = {}
        for module in self.crate(crate).within():
            for item in module.items:
                if item.kind == "impl":
                    target = self.resolve(module, impl_parts(item).path)
                    if isinstance(target, tuple):
                        found.setdefault(id(target[1]), []).append((target[1], item))
        return found

    def methods(self, module, item):
        """Gives the public functions of a type, or the functions of a trait."""
        if item.kind == "trait":
            yield from (it for it in item.items() if it.kind == "fn")
        for _, impl in self.impls(module.crate).get(id(item), []):
            if not impl_parts(impl).trait:
                yield from (it for it in impl.items() if it.kind == "fn" and it.is_public)


def crate_names():
    """Returns the names of `crates.txt`, in its order."""
    lines = [line.partition("#")[0] for line in text_of("crates.txt").split("\n")]
    return [line.split(":")[0].split()[0] for line in lines if ":" in line]


# ---- definitions


@dataclass
class Definition:
    """A definition of an `.antt` file: the comment right above it, and its text."""

    path: str
    name: str
    is_public: bool
    line: int
    comment: str
    text: str


STATED = re.compile(
    r"(?P<indent> *)(?P<words>(?:(?:abbrev|unfoldable|pub|record|data)\s+)*)"
    r"(?P<name>[^\s:({]+)(?P<rest>.*)"
)


@functools.cache
def definitions(path):
    """Returns the definitions of an `.antt` file, in order. Fields of records aren't among them."""
    lines = text_of(path).split("\n")
    starts, inside = [], None  # the indentation of the record or the data whose fields come
    for number, line in enumerate(lines):
        it = STATED.match(line)
        if not it or line.lstrip().startswith("--"):
            continue
        indent, words, name = len(it["indent"]), it["words"].split(), it["name"]
        if inside is not None and indent <= inside:
            inside = None
        is_stated = words or (indent == 0 and re.match(r"\s*:\s", it["rest"]))
        if inside is not None or not is_stated or name in ("mod", "use", "mutual", "module"):
            continue
        if "record" in words or "data" in words:
            inside = indent
        starts.append((number, indent, name, "pub" in words))
    return [definition(path, lines, *it) for it in starts]


def definition(path, lines, number, indent, name, is_public):
    """Returns the definition that begins at a line: it ends at a blank line, a comment or another
    definition of no greater indentation."""
    above, end = [], number + 1
    for line in reversed([it.strip() for it in lines[:number]]):
        if not line.startswith("--") or line.startswith("-- ----"):
            break
        above.insert(0, line[2:].strip())
    while end < len(lines) and lines[end].strip() and not is_next(lines[end], indent):
        end += 1
    text = "\n".join(it[indent:] for it in lines[number:end])
    return Definition(path, name, is_public, number + 1, " ".join(above), text)


def is_next(line, indent):
    """Returns whether a line is a comment or begins a definition, of no greater indentation."""
    if len(line) - len(line.lstrip()) > indent:
        return False
    return bool(re.match(r"\s*(--|abbrev |unfoldable |pub )", line))
