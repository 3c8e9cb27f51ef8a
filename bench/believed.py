#!/usr/bin/env python3
"""Counts the definitions that a reader has to believe: those that a root names, those that these name, and so on. It
reads the specs of all crates, follows each name by the `use` lines of its file, and prints for each crate how many
definitions were reached and how many lines they have, without comments, blank lines and imports. Words of std and of
the kit's crates aren't counted, and of a type that is declared in Rust only that it was reached. A name that a variable
hides counts as the definition. The gate never runs it.

usage: bench/believed.py ROOT.. [--but NAME]..
  ROOT is CRATE/FILE/NAME, a definition, as pm_cli/Promise/Does;
          CRATE/FILE, all definitions of specs/FILE.antt;
          CRATE/src/FILE.rt/NAME, all that the clauses of a function name, as pm_cli/src/running.rt/run
  --but NAME: what no reader need look into: definitions of this name are counted, and nothing that they name
"""

import collections
import pathlib
import re
import sys

TOP = pathlib.Path(__file__).resolve().parent.parent
START = re.compile(r"(?:(?:abbrev|unfoldable) )?(?:pub )?(?:(data|record) )?(\S+)(?: [({].*| :.*|)$")
TOKEN = re.compile(r"◌?[^\W\d][\w'-]*(?:\.[^\W\d][\w'-]*)*")
USE = re.compile(r"^(?:pub )?(?:ghost )?use Rattle\.(\S+?)(?:\.\{(.*)\})?(?: as (\S+?))?;?$")

Definition = collections.namedtuple("Definition", "module name lines")


def parts(module):
    """The crate and the file of a path like pm_cli.specs.Run; a declared type has the path of its Rust file."""
    crate, _, rest = module.partition(".specs.")
    return crate, rest


class Module:
    """A file of definitions: its imports, its definitions, and which definition has a constructor of a name."""

    def __init__(self, path, text):
        self.path, self.names, self.aliases, self.found = path, {}, {}, {}
        self.operators = []
        self.read_uses(text.splitlines())
        self.read_definitions(text.splitlines())

    def read_uses(self, lines):
        for line in lines:
            use = USE.match(line.strip())
            if not use:
                continue
            module, items, alias = use.groups()
            if items is None:
                self.aliases[alias or module.split(".")[-1]] = module
            for item in (items or "").split(","):
                name, _, other = item.strip().partition(" as ")
                if name.startswith("◌"):
                    self.operators.append((module, name))
                elif name:
                    self.names[other or name.split(".")[-1]] = (module, name)

    def read_definitions(self, lines):
        name, kind, body = None, None, []
        for line in lines + ["end"]:
            text = re.sub(r"(^|\s)-- .*", "", line).rstrip()
            if not text or USE.match(text.strip()) or text.startswith(("infix", "pub mod", "mod ", "mutual")):
                continue
            depth = len(text) - len(text.lstrip())
            start = START.match(text.strip()) if depth == 0 or (depth == 2 and text.strip().startswith("abbrev")) else None
            if start and start.group(2) != name and (start.group(1) or " : " in text or text.startswith("end")):
                if name:
                    self.found[name] = Definition(self.path, name, body)
                name, kind, body = start.group(2), start.group(1), []
            elif kind == "data" and depth == 2 and " : " in text + " ":
                self.names.setdefault(text.split()[0], (self.path, name))
            body.append(text)

    def meaning_of(self, token):
        """The module and the name of a definition that a token of this file stands for, if it is one."""
        head, *rest = token.split(".")
        if head in self.found:
            return self.path, head
        if head in self.names:
            return self.names[head]
        if head in self.aliases and rest:
            return self.aliases[head], rest[0]
        return None


class Library:
    """The specs of all crates."""

    def __init__(self):
        self.modules, self.declared = {}, set()
        for file in sorted(TOP.glob("crates/*/specs/*.antt")):
            path = f"{file.parts[-3]}.specs.{file.stem}"
            self.modules[path] = Module(path, file.read_text())

    def definition(self, meaning):
        """What a module and a name stand for: the definition, if it is one of these files."""
        module, name = meaning
        if ".specs.declared." in module:
            self.declared.add(module.removesuffix(".TheVariants"))
            return None
        home = self.modules.get(module)
        if home is None:
            return None
        if name in home.found:
            return home.found[name]
        again = home.names.get(name)
        return self.definition(again) if again else None

    def named_in(self, home, text):
        """The definitions that a text of a module names."""
        found = []
        for token in set(TOKEN.findall(text)):
            meaning = home.meaning_of(token)
            definition = meaning and self.definition(meaning)
            if definition:
                found.append(definition)
        for module, name in home.operators:
            sign = name.strip("◌")
            if sign in text or (sign == ">>=" and "←" in text):
                definition = self.definition((module, name))
                if definition:
                    found.append(definition)
        return found

    def of_root(self, root):
        """The definitions that a root of the command line stands for."""
        crate, file, *rest = root.split("/")
        if file == "src":
            text = (TOP / "crates" / crate / "src" / rest[0]).read_text()
            home = Module(f"{crate}.src.{rest[0]}", text)
            clauses = re.search(rf"\bfn {rest[1]}\b.*?\n{{\n", text, re.S).group(0)
            return self.named_in(home, re.sub(r"//.*", "", clauses))
        home = self.modules[f"{crate}.specs.{file}"]
        return [home.found[rest[0]]] if rest else list(home.found.values())

    def reached(self, roots, hidden):
        """All definitions that are reached, each once."""
        found, open_ones = {}, [definition for root in roots for definition in self.of_root(root)]
        while open_ones:
            definition = open_ones.pop()
            key = (definition.module, definition.name)
            if key in found:
                continue
            found[key] = definition
            if definition.name not in hidden:
                open_ones += self.named_in(self.modules[definition.module], "\n".join(definition.lines))
        return found


def main(words):
    roots, hidden = [], []
    while words:
        word = words.pop(0)
        if word == "--but" and words:
            hidden.append(words.pop(0))
        elif word.startswith("-"):
            sys.exit(__doc__)
        else:
            roots.append(word)
    if not roots:
        sys.exit(__doc__)
    library = Library()
    crates = collections.Counter()
    count = collections.Counter()
    for definition in library.reached(roots, hidden).values():
        crate, _ = parts(definition.module)
        count[crate] += 1
        crates[crate] += len(definition.lines)
    for crate, lines in crates.most_common():
        print(f"{crate}: {count[crate]} definitions, {lines} lines")
    print(f"in all: {sum(count.values())} definitions, {sum(crates.values())} lines, {len(library.declared)} types of Rust")


if __name__ == "__main__":
    main(sys.argv[1:])
