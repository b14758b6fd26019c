#!/usr/bin/env python3
"""How much one must read to know what the contract of `top` says.

usage: tools/contract_size.py [--list ROW] [CRATES]

Prints a row for the clauses `computed` and `checked`, which say what a result means; one for the
whole contract; and one for the whole contract where some names stay closed. Each has the count of
the definitions that must be read, and of their lines. Where a row has more definitions than it may
have, a line says so, and the status is 1. --list ROW prints the definitions of a row, the first
being 1, in the order in which they are met. CRATES is the folder of the crates.

Read are the definitions, records and data of specs/ that the clauses name, those that these name,
and so on; the types that the code declares, or their models; and the traits of the outside with
their clauses. What the kit has isn't counted, and a definition is read where its name stands,
needed or not. A closed name is one whose meaning a law gives: the law's clauses are read in place
of its body. What `plan` and `begin` print is the text of such a plan; to predict it one must open
the name.
"""
import argparse
import collections
import functools
import os
import re
import sys

TOP = os.path.dirname(os.path.dirname(os.path.realpath(__file__)))
# A call is a crate, a file of its src/ and a function.
CALL = "cu_top", "call", "top"
MEANING = "computed", "checked"
# Each closed name, and the law that gives its meaning.
CLOSED = {"cu_top.Prepare.job_plan": ("cu_top", "result", "plan_of_law")}
MOST_OF_MEANING, MOST_CLOSED = 650, 1770

WORD = re.compile(r"[{}()\[\],;]|[^\s{}()\[\],;]+")
WORD_OF_CODE = re.compile(r"[{}()\[\],;]|[^\s{}()\[\],;<>&:]+")
PREFIX = r"(?:(?:abbrev|unfoldable|pub) )*"
ITEM = re.compile(rf"{PREFIX}(record|data) (\S+)|{PREFIX}([^\s:]+) :(?:\s|$)")
USE = re.compile(r"(?:pub |ghost )*use (\S+?)(?:\.\{(.*)\})?(?: as (\w+))?;?$")
USE_OF_CODE = re.compile(
    r"^ *(?:pub )?use (crate|cu_\w+)(?:::\w+)*::(?:\{([^}]*)\}|(\w+));", re.M)
DECLARED = re.compile(r"^ *(?:pub(?:\([^)]*\))? )?(struct|enum|trait) (\w+)([^\n]*)", re.M)
BINDERS = re.compile(r"[({]((?:[^\s(){}:]+ )+):\s")
FIELDS = re.compile(r"^\s+(?:pub )?((?:[^\s(){}:]+ )+):\s", re.M)
LAMBDA = re.compile(r"λ ([^.]*?)\.(?:\s|$)")
LET = re.compile(r"\blet (.*?) (?:=|:)\s", re.S)
STRING = re.compile(r'"(?:\\.|[^"\\])*"')


def lines_of(text):
    return [line for line in text.split("\n") if line.strip()]


def without_comments(text, mark="--"):
    return re.sub(rf"(^|\s){mark}(?:[ \t].*)?$", "", text, flags=re.M)


def text_of(path):
    with open(path, encoding="utf-8") as file:
        return file.read()


class Scope:
    """The names that a file brings in: `names` of other modules, `aliases` of modules, and `types`
    of Rust.
    """

    def __init__(self):
        self.names, self.aliases, self.types = {}, {}, {}

    def use(self, line):
        found = USE.match(re.sub(r"\s+", " ", line).strip())
        if not found:
            return False
        module, names, alias = found.groups()
        for first, second in renamed(names or ""):
            self.names[second] = module, first
        if names is None and alias:
            self.aliases[alias] = module
        return True


def renamed(names):
    """The names of a list, each with the one that it has where it is brought in."""
    for name in names.split(","):
        first, _, second = name.strip().partition(" as ")
        if first:
            yield first, second or first


class Definition:
    """One item: its kind, its rows of code, a signature and its clauses each a row, and the scope
    in which they stand. `inner` is the head of the block in which it stands, whose names are bound.
    """

    def __init__(self, home, name, kind, row, scope, inner=""):
        self.home, self.name, self.kind, self.rows = home, name, kind, [row]
        self.scope, self.inner = scope, inner

    @property
    def full_name(self):
        return f"{self.home}.{self.name}"

    def lines(self):
        return sum(len(lines_of(row)) for row in self.rows)


class Module(Scope):
    """A file of specs/: its definitions by name, and the data whose constructor a name is."""

    def __init__(self, home, text):
        super().__init__()
        self.home, self.definitions, self.constructors = home, {}, {}
        last, inner = None, ""
        for is_head, row in items(without_comments(text)):
            if is_head:
                inner = row
            elif self.use(row) or re.match(r"(pub )?mod |infix", row):
                last = None
            else:
                last = self.add(row, last, inner)

    def add(self, row, last, inner):
        found = ITEM.match(row)
        if not found:
            if last:
                last.rows.append(row)  # a clause
            return last
        kind, name = found[1] or "function", found[2] or found[3]
        made = self.definitions[name] = Definition(self.home, name, kind, row, self, inner)
        for line in row.split("\n")[1:] if kind == "data" else ():
            constructor = re.match(r"\s+(?:pub )?(\S+) :", line)
            if constructor:
                self.constructors[constructor[1]] = made
        return made


def items(text):
    """The items of a file of specs/ in their order. Those of a block follow its head, which is
    marked, and an empty head ends them.
    """
    row, base = [], 0
    for line in lines_of(text):
        depth = len(line) - len(line.lstrip())
        if depth <= base and line.lstrip()[0] not in "})":
            if row:
                yield False, "\n".join(row)
            row = []
            if depth == 0 and base:
                base = 0
                yield True, ""
            if re.match(r"(abbrev )?mutual\b|module .*where$", line):
                base = 2
                yield True, line
                continue
        row.append(line if row else line[base:])
    if row:
        yield False, "\n".join(row)


# ---- the code

def block(text, start):
    """The text from `start` up to the bracket that closes the first one behind it."""
    depth = 0
    for at in range(start, len(text)):
        depth += {"{": 1, "}": -1}.get(text[at], 0)
        if text[at] == "}" and depth == 0:
            return text[start:at + 1]
    return text[start:]


def clauses_of(text):
    """The clauses of a contract, each with its name."""
    for found in re.finditer(r"\b(?:requires|ensures)\b(?: (\w+))? \{", text):
        yield found[1] or "", block(text, found.end() - 1)[1:-1]


def trait_text(text):
    """A trait's head, its ghost members and types, and the clauses of its methods."""
    members = re.findall(r"^ *ghost \w+: [^\n]*|^ *type \w+[^\n]*", text, re.M)
    return "\n".join([text.split("\n")[0], *members, *(clause for _, clause in clauses_of(text))])


class Source(Scope):
    """A file of src/: the types and traits that it declares, and the contracts of its functions."""

    def __init__(self, crate, place, text):
        super().__init__()
        self.crate, self.place, self.text = crate, place, without_comments(text, "///?!?")
        for line in re.findall(r"^ *ghost use [^;]*;", self.text, re.M):
            self.use(line)
        for root, many, one in USE_OF_CODE.findall(self.text):
            for first, second in renamed(many or one):
                self.types[second] = crate if root == "crate" else root, first

    def declared(self):
        """The types and traits; of a type with a model, the model."""
        for found in DECLARED.finditer(self.text):
            kind, name, rest = found.groups()
            text = found[0] if rest.rstrip().endswith(";") else block(self.text, found.start())
            model = re.search(rf"^ *impl(?:<[^>]*>)? Model for {name}\b", self.text, re.M)
            if kind == "trait":
                text = trait_text(text)
            elif model:
                text = block(self.text, model.start())
            row = [line for line in lines_of(text)
                   if not re.match(r"\s*(#\[|ghost (use|inverse))", line)]
            yield Definition(f"{self.crate}.{self.place}", name, kind, "\n".join(row), self)

    def contract(self, function):
        """The signature of a function, and its clauses."""
        start = re.search(rf"^ *(?:pub )?fn {function}\b", self.text, re.M).start()
        end = re.search(r"^\s*\{", self.text[start:], re.M)
        text = self.text[start:start + end.start()]
        return re.split(r"^ *(?:requires|ensures)\b", text, maxsplit=1, flags=re.M)[0], text


# ---- what a definition names

def bound_in(row):
    """The names that a row binds by a telescope, a lambda, a let or an arrow."""
    bound = {name for names in BINDERS.findall(row) for name in names.split()}
    for names in LAMBDA.findall(row) + LET.findall(row):
        bound |= {name for name in WORD.findall(names) if "." not in name}
    return bound | set(re.findall(r"(\S+) ←", row))


class Crates:
    """The definitions of all crates of a folder, and what each of them names."""

    def __init__(self, folder):
        self.folder = folder
        self.named = functools.lru_cache(maxsize=None)(self.read_named)
        self.module = functools.lru_cache(maxsize=None)(self.read_module)
        self.sources, self.types = {}, {}
        for at, _, files in os.walk(folder):
            crate, *place = os.path.relpath(at, folder).split(os.sep)
            for name in sorted(files):
                if name.endswith(".rt") and place[:1] == ["src"]:
                    path = ".".join([*place[1:], name[:-3]])
                    self.add(Source(crate, path, text_of(f"{at}/{name}")))

    def add(self, source):
        self.sources[source.crate, source.place] = source
        for made in source.declared():
            self.types.setdefault((source.crate, made.name), []).append(made)

    def read_module(self, name):
        """The module of this name, if it is one of specs/ of these crates."""
        parts = name.split(".")
        path = os.path.join(self.folder, *parts[1:]) + ".antt"
        if parts[0] != "Rattle" or parts[2:3] != ["specs"] or not os.path.isfile(path):
            return None
        return Module(".".join([parts[1], *parts[3:]]), text_of(path))

    def declared(self, module, name):
        """The type of the code that stands behind a name of `Rattle.CRATE.specs.declared.PATH`."""
        crate, _, _, *path = module.split(".")[1:]
        path = [part for part in path if part != "TheVariants"]
        for last in [*path[-1:], name]:
            made = self.types.get((crate, last), [])
            for one in made:
                if one.home.split(".")[1:] in (path, path[:-1]):
                    return one
            if made:
                return made[0]
        return None

    def imported(self, module, name, seen=()):
        if ".specs.declared." in module:
            return self.declared(module, name)
        other = self.module(module)
        if other is None or (module, name) in seen:
            return None
        return self.look(other, name, (*seen, (module, name)))

    def look(self, scope, name, seen=()):
        """The definition that a name means in a scope; none where it is the kit's, or unknown."""
        if isinstance(scope, Module):
            made = scope.definitions.get(name) or scope.constructors.get(name)
            if made:
                return made
        if name in scope.names:
            return self.imported(*scope.names[name], seen)
        if not isinstance(scope, Source):
            return None
        crate, first = scope.types.get(name, (scope.crate, name))
        if (crate, first) in self.types:
            return self.types[crate, first][0]
        # one that the named crate brings in from another
        found = [made for key, made in self.types.items() if key[1] == first]
        return found[0][0] if name in scope.types and len(found) == 1 else None

    def meant(self, scope, word):
        """The definition that a word means, which may be an operator, or have a path before or
        behind its name.
        """
        if not re.search(r"\w", word):
            return self.look(scope, f"◌{word}◌")
        first, _, rest = word.partition(".")
        if first in scope.aliases and rest:
            return self.imported(scope.aliases[first], rest.split(".")[0])
        return self.look(scope, first)

    def names_in(self, scope, row, bound, head=""):
        """The definitions that a row names beside the bound names. Behind its name the head of a
        clause has constructors, and names that it binds.
        """
        bound = bound | bound_in(row)
        for word in WORD.findall(head)[1:]:
            made = self.meant(scope, word)
            if made and (word[:1].isupper() or "." in word or made.kind == "data"):
                yield made
            else:
                bound.add(word)
        pattern = WORD_OF_CODE if isinstance(scope, Source) else WORD
        words = pattern.findall(STRING.sub(" ", row[len(head):]))
        for before, word, behind in zip(["", *words], words, [*words[1:], ""]):
            is_label = behind == "=" and before in ("{", ";")
            if not is_label and word.split(".")[0] not in bound:
                made = self.meant(scope, word)
                if made:
                    yield made

    def read_named(self, made):
        """What a definition names, in order, each once."""
        first, *clauses = made.rows
        bound = bound_in(made.inner)
        if made.kind == "record":
            bound |= {name for names in FIELDS.findall(first) for name in names.split()}
        found = [*self.names_in(made.scope, made.inner, set()),
                 *self.names_in(made.scope, first, bound)]
        for row in clauses:
            head = re.match(r"(.*?)\s=\s", row, re.S)
            found += self.names_in(made.scope, row, bound, head[1] if head else "")
        return [other for other in dict.fromkeys(found) if other is not made]

    def clauses(self, call, names=()):
        """What the clauses of a call name, all or those of these names, and the traits through
        which it sees the outside.
        """
        source = self.sources[call[:2]]
        signature, text = source.contract(call[2])
        found = [made for made in self.names_in(source, signature, set()) if made.kind == "trait"]
        for name, clause in clauses_of(text):
            if not names or name in names:
                found += self.names_in(source, clause, set())
        return list(dict.fromkeys(found))

    def read_from(self, first, closed):
        """All that is read from these definitions on, in the order in which it is met, where these
        names stay closed.
        """
        found, rest = dict.fromkeys(first), collections.deque(first)
        while rest:
            made = rest.popleft()
            law = closed.get(made.full_name)
            for other in self.clauses(law) if law else self.named(made):
                if other not in found:
                    found[other] = None
                    rest.append(other)
        return list(found)


def rows_of(crates):
    """Each row: what it is of, the definitions that are read, and how many there may be."""
    meaning, whole = crates.clauses(CALL, MEANING), crates.clauses(CALL)
    closed = " and ".join(name.rsplit(".", 1)[1] for name in CLOSED)
    names = " and ".join(f"`{name}`" for name in MEANING)
    yield names, crates.read_from(meaning, {}), MOST_OF_MEANING
    yield f"`{CALL[2]}`", crates.read_from(whole, {}), None
    yield f"`{CALL[2]}`, with `{closed}` closed", crates.read_from(whole, CLOSED), MOST_CLOSED


def print_rows(rows, listed):
    """Prints the rows, and the definitions of the listed one. The status is 1 where one has more
    than it may have.
    """
    status = 0
    for number, (name, read, most) in enumerate(rows, 1):
        for made in read if listed == number else ():
            print(f"{made.lines():4} {made.full_name}")
        lines = sum(made.lines() for made in read)
        limit = f" (at most {most:,})" if most else ""
        print(f"{name}: {len(read):,} definitions, {lines:,} lines{limit}")
        if most and len(read) > most:
            print(f"{name}: more than may be read")
            status = 1
    return status


def main(words=None):
    parser = argparse.ArgumentParser(description=__doc__.split("\n", maxsplit=1)[0])
    parser.add_argument("--list", type=int, metavar="ROW")
    parser.add_argument("crates", nargs="?", default=f"{TOP}/crates")
    given = parser.parse_args(words)
    return print_rows(rows_of(Crates(given.crates)), given.list)


if __name__ == "__main__":
    sys.exit(main())
