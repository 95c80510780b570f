"""The items of a file of code, with what stands at each: its comment, its attributes, its head and its contract.

It reads the layout of `rt fmt`: an item begins a line, and ends by the line that closes its last bracket.
"""

import functools
import os
import re

from modules import ROOT

ITEM = re.compile(
    r"(pub(?:\([a-z]+\))? )?(?:(?:const|unsafe|final|extern \"C\") (?=.*\bfn\b))*(?:unsafe )?"
    r"(fn|struct|enum|trait|type|const|static|impl)\b(?: (\w+))?"
)
# What begins the contract of a function, below its head.
CLAUSE = re.compile(r"    (requires|ensures|ghost|decreases|//)")
HIDDEN = re.compile(r"//[^\n]*|\"(?:\\.|[^\"\\])*\"|'(?:\\.|[^'\\])'", re.S)


def masked(text):
    """Returns a text of the same lines, without comments, and with nothing between quotes."""
    return HIDDEN.sub(lambda it: re.sub(r"[^\n]", " ", it[0]), text)


def dedented(lines):
    return [line[4:] if line.startswith("    ") else line for line in lines]


class Item:
    """An item: its kind, whether it is public, its name, comment and attributes; its lines, and of these the head (of a
    function up to its contract, of a type up to its fields), the contract, and what the braces hold."""

    def __init__(self, kind, public, name, doc, attributes, lines, hidden):
        self.kind, self.public, self.name = kind, public, name
        self.doc, self.attributes, self.lines = doc, attributes, lines
        self.head, self.contract, self.body = lines, [], []
        if kind == "fn":
            self.split_function(hidden)
        elif kind in ("impl", "trait", "struct", "enum"):
            opened = next((at for at, line in enumerate(hidden) if line.rstrip().endswith("{")), None)
            if opened is not None:
                self.head, self.body = lines[: opened + 1], dedented(lines[opened + 1 : -1])

    def split_function(self, hidden):
        depth, start = 0, None
        for at, line in enumerate(hidden):
            if depth == 0 and start is None and CLAUSE.match(self.lines[at]):
                start = at
            bare = line.rstrip()
            if depth == 0 and bare in ("{", "{}"):
                self.head, self.contract = self.lines[: start or at], self.lines[start or at : at]
                return
            depth += sum((sign in "([{") - (sign in ")]}") for sign in line)
            if start is None and (depth == 1 and bare.endswith("{") or depth == 0 and bare.endswith(("{}", ";"))):
                self.head = [re.sub(r" (\{\}?|;)$|;$", "", it) for it in self.lines[: at + 1]]
                return
        # A function of a trait has no body, and its last clause ends it.
        self.head, self.contract = self.lines[:start], self.lines[start:]

    def inner(self):
        """Returns the items in its braces."""
        return items_of("\n".join(self.body)) if self.kind in ("impl", "trait") else []

    def ghost_lines(self):
        """Returns what its braces say for contracts alone: the lines of each `ghost`, with the comment above."""
        return [line for entry in ghost_entries(self.body) for line in entry]


def ghost_entries(lines):
    """Yields each `ghost` of a block, with the comment above it."""
    above, entry = [], None
    for line in lines:
        if entry is not None:
            entry.append(line)
        elif re.match(r"ghost (?!use)", line):
            entry, above = above + [line], []
        else:
            above = above + [line] if line.startswith("//") else []
        if entry is not None and entry[-1].endswith(";"):
            yield entry
            entry = None


def end_of_item(kind, lines, hidden, begin):
    """Returns the line after an item's last one."""
    depth = 0
    for at in range(begin, len(lines)):
        depth += sum((sign in "([{") - (sign in ")]}") for sign in hidden[at])
        bare = hidden[at].rstrip()
        # A contract's clauses end in braces, too, and after them comes the body.
        if depth == 0 and (bare.endswith(";") or bare in ("}", "{}")):
            return at + 1
        if depth == 0 and kind in ("fn", "impl", "trait", "struct", "enum") and at == begin and bare.endswith("}"):
            return at + 1
        if depth == 0 and kind in ("fn", "impl") and re.match(r"[)>}\w].* \{\}$", bare):
            return at + 1
    return len(lines)


def items_of(text):
    """Returns the items that begin a line of a text, in its order."""
    lines, hidden = text.split("\n"), masked(text).split("\n")
    found, doc, attributes, at = [], [], [], 0
    while at < len(lines):
        line = lines[at]
        head = ITEM.match(line)
        if head:
            end = end_of_item(head[2], lines, hidden, at)
            public = (head[1] or "").strip() == "pub"
            found.append(Item(head[2], public, head[3], doc, attributes, lines[at:end], hidden[at:end]))
            doc, attributes, at = [], [], end
            continue
        if line.startswith("///"):
            doc.append(line[4:])
        elif line.startswith("#["):
            end = at + 1
            while sum((sign == "[") - (sign == "]") for it in hidden[at:end] for sign in it):
                end += 1
            attributes.append("\n".join(lines[at:end]))
            at = end - 1
        else:
            doc, attributes = [], []
        at += 1
    return found


def file_of(crate, path):
    return os.path.join(ROOT, crate, "src", *(path or ("lib",))) + ".rt"


@functools.lru_cache(maxsize=None)
def module_of(crate, path):
    """Returns the comment at the head of a module's file, and its items; or None where there is no such file."""
    file = file_of(crate, path)
    if not os.path.exists(file):
        return None
    with open(file, encoding="utf-8") as source:
        text = source.read()
    return comment_at_head(text), items_of(text)


def comment_at_head(text):
    return [line[4:] for line in re.match(r"(?:(?://!.*)?\n)*", text)[0].split("\n") if line.startswith("//!") or line == ""]
