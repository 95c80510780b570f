"""What the crates' files name: modules, what they export, and functions with their text."""

import functools
import glob
import os
import re

TOP = os.path.join(os.path.dirname(os.path.abspath(__file__)), "..")
ROOT = os.path.join(TOP, "crates")
ITEM = re.compile(r"pub (?:const |final )?(?:fn|struct|enum|trait|type|const|static) (\w+)")


def code_of(file):
    """Returns the text of a file without comments, and with nothing in its quotes."""
    with open(file, encoding="utf-8") as text:
        return re.sub(
            r"""//[^\n]*|"(?:\\.|[^"\\])*"|'(?:\\.|[^'\\])'""",
            lambda it: "" if it[0].startswith("//") else it[0][0] * 2,
            text.read(),
            flags=re.S,
        )


def read(crate, path):
    """Returns the text of a module's file, or None where there is none."""
    file = os.path.join(ROOT, crate, "src", *(path or ("lib",))) + ".rt"
    return code_of(file) if os.path.exists(file) else None


def leaves(tree):
    """Yields path and name of each name that `a::{b, c as d}` brings."""
    tree = re.sub(r"\s+", " ", tree).strip()
    group = re.fullmatch(r"(.*?)::\{(.*)\}", tree)
    if not group:
        path, _, alias = tree.partition(" as ")
        yield path.removesuffix("::self"), alias or path.removesuffix("::self").split("::")[-1]
        return
    depth, begin, inner = 0, 0, group[2] + ","
    for at, sign in enumerate(inner):
        depth += (sign == "{") - (sign == "}")
        if sign == "," and not depth:
            if inner[begin:at].strip():
                for path, name in leaves(inner[begin:at]):
                    yield f"{group[1]}::{path}".removesuffix("::self"), name if name != "self" else group[1].split("::")[-1]
            begin = at + 1


def home(crate, path, written):
    """Returns the crate and path that a path in this module's `use` means."""
    words = tuple(written.split("::"))
    if words[0] in ("crate", "self", "super"):
        path = () if words[0] == "crate" else path[: len(path) - (words[0] == "super")]
        return crate, path + words[1:]
    if os.path.isdir(os.path.join(ROOT, words[0])):
        return words[0], words[1:]
    return crate, path + words


@functools.lru_cache(maxsize=None)
def outside(crate, path):
    """Returns the names that a module exports: of each where it stands."""
    text = read(crate, path)
    if text is None:
        return None
    # Modules that only tests have are no one's to name.
    text = re.sub(r"#\[cfg\(test\)\]\s*(pub )?mod \w+;", "", text)
    named = {name: (crate, path + (name,)) for name in re.findall(r"(?m)^" + ITEM.pattern, text)}
    for name in re.findall(r"(?m)^pub mod (\w+);", text):
        named[name] = (crate, path + (name,))
    for use in re.finditer(r"(?m)^pub use ([^;]+);", text):
        for written, name in leaves(use[1]):
            named[name] = home(crate, path, written)
    return named


def end_of(crate, path):
    """Follows a path through the modules that only pass names on, to the module or item that it means."""
    if read(crate, path) is not None or not path:
        return crate, path
    above = outside(*end_of(crate, path[:-1]))
    target = above and above.get(path[-1])
    return end_of(*target) if target and target != (crate, path) else (crate, path)


def names(crate, path=(), shown=()):
    """Returns all public paths of a module, and of each the module or item that it means."""
    found = {}
    for name, (where, inside) in outside(crate, path).items():
        here = shown + (name,)
        end = end_of(where, inside)
        found["::".join(here)] = end
        if outside(*end) is not None:
            found |= names(*end, here)
    return found


def listed():
    """Returns the crates in crates.txt, and of each the libraries that it names."""
    with open(os.path.join(TOP, "crates.txt"), encoding="utf-8") as rows:
        return {row.split(":")[0].split()[0]: row.split(":")[1].split() for row in rows if ":" in row}


def is_tests(crate):
    return crate.endswith(("_tests", "_examples", "_rows"))


# What the tests share: like them it has no contract, law or test.
SHARED = ("fault_devices",)


def libraries():
    libraries = [it for it in listed() if os.path.exists(os.path.join(ROOT, it, "src", "lib.rt"))]
    return [it for it in libraries if not is_tests(it) and it not in SHARED]


def files_of(crate):
    """Yields module path and text of each module, and whether it is one of tests."""
    top = os.path.join(ROOT, crate, "src")
    for file in sorted(glob.glob(os.path.join(top, "**", "*.rt"), recursive=True)):
        path = tuple(os.path.relpath(file, top)[:-3].split(os.sep))
        yield () if path == ("lib",) else path, code_of(file), is_tests(crate) or path[0] == "tests"


def brought(crate, path, text):
    """Returns what the names mean that the `use`s of a file bring."""
    known = {}
    for use in re.finditer(r"(?m)^\s*(?:pub )?use ([^;]+);", text):
        for written, name in leaves(use[1]):
            end = end_of(*home(crate, path, written.removesuffix("::*")))
            known |= (outside(*end) or {}) if name == "*" else {name: end}
    return known
