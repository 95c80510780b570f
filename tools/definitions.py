"""What the scripts beside this one read of specs/: the definitions of each crate, and what clauses cite of them."""

import functools
import glob
import os
import re

from modules import ROOT, files_of, home, libraries, listed

# The head of a definition, which begins its line.
HEAD = re.compile(r"(?m)^(?:abbrev |unfoldable )?pub (record |data )?(?!use\b|mod\b)([^\s:(){}]+)")
USE = re.compile(r"(?m)^\s*(?:pub |ghost )?use (?:Rattle\.)?(\w+(?:\.\w+)*)(?:\.\{([^}]*)\}| as (\w+))?")
WORD = re.compile(r"(?:\b[A-Za-z]\w*\.)?[A-Za-z]\w*(?:-\w+)*")


def without_comments(text):
    return re.sub(r"(?m)--.*$", "", text)


@functools.lru_cache(maxsize=None)
def handed_on():
    """Returns the modules that a crate's specs/Lib.antt hands on by a name of its own, each with the one that it is."""
    found = {}
    for crate in listed():
        file = os.path.join(ROOT, crate, "specs", "Lib.antt")
        if os.path.exists(file):
            with open(file, encoding="utf-8") as source:
                for path, alias in re.findall(r"(?m)^pub use Rattle\.([\w.]+)(?: as (\w+))?$", source.read()):
                    there = tuple(path.split("."))
                    found[crate, "specs", alias or there[-1]] = there
    return found


def brought(text):
    """Returns the names that the `use`s of a file of definitions or of code bring: of each the module and the name there,
    which is None for a module."""
    known = {}
    for module, listed_names, alias in USE.findall(text):
        path = tuple(module.split("."))
        path = handed_on().get(path[:3], path[:3]) + path[3:]
        if alias:
            known[alias] = (path, None)
        for it in filter(None, map(str.strip, listed_names.split(","))):
            name, _, other = it.partition(" as ")
            known[other or name] = (path, name)
    return known


class Definition:
    """A definition: its kind (record, data, or nothing for another), the text of its type and that of its clauses."""

    def __init__(self, module, name, kind, text):
        self.module, self.name, self.kind = module, name, kind
        if kind:
            self.type, _, self.body = text.partition(" where")
            self.clauses = re.findall(r"(?ms)^  (?:pub )?[\w-]+ :\s+(.*?)(?=^  (?:pub )?[\w-]+ :\s|\Z)", self.body)
        else:
            # The clauses of a definition begin with its name.
            self.type, *clauses = re.split(rf"(?m)^(?={re.escape(name)}(?:\s|$))", text)
            self.clauses = [re.split(r"(?<=\s)=(?=\s)", it, maxsplit=1)[-1] for it in clauses]
            self.body = "".join(clauses)

    def is_predicate(self):
        """Returns whether it says something of values, which may hold or not."""
        # A record or enum without arguments, or only of types, is a type of values.
        arguments = re.sub(r"[({][^(){}]*: Type \d[)}]|:\s*Type \d\s*$", "", self.type).strip()
        return (not self.kind or bool(arguments)) and bool(re.search(r"Type \d\s*$", self.type))

    def __str__(self):
        return "::".join(self.module[:1] + self.module[2:] + (self.name,))


@functools.lru_cache(maxsize=None)
def definitions():
    """Returns the definitions by module and name, and the names that each module has brought."""
    found, uses = {}, {}
    for crate in listed():
        top = os.path.join(ROOT, crate, "specs")
        for file in sorted(glob.glob(os.path.join(top, "**", "*.antt"), recursive=True)):
            module = (crate, "specs") + tuple(os.path.relpath(file, top)[:-5].split(os.sep))
            with open(file, encoding="utf-8") as source:
                text = without_comments(source.read())
            uses[module] = brought(text)
            heads = list(HEAD.finditer(text))
            for head, end in zip(heads, [it.start() for it in heads[1:]] + [len(text)]):
                found[module, head[2]] = Definition(module, head[2], (head[1] or "").strip(), text[head.end() : end])
    return found, uses


def cited(text, module, known):
    """Yields the definitions that a text cites, by the names that are known in it or that its own module has."""
    found, _ = definitions()
    for word in WORD.findall(USE.sub("", text)):
        first, _, last = word.rpartition(".")
        for name in {first or last, last}:
            path, there = known.get(name, (module, name))
            # A name after a module, a definition, or a constructor of one.
            for target in ((path, there or last), (path[:-1], path[-1]) if path else None):
                if target in found:
                    yield target
