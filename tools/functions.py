"""The public functions and methods of the libraries, and what the types of these hold and answer."""

import re

from modules import files_of, libraries, names

FUNCTION = re.compile(r"^( *)(pub )?(?:pub\([a-z]+\) )?fn (\w+)", re.M)


def words(text):
    return set(re.findall(r"\b[A-Za-z_]\w*\b", text))


def functions_of(text):
    """Yields whether each function is public, its name, what it answers, and its text."""
    for it in FUNCTION.finditer(text):
        end = re.compile(rf"^{it[1]}(\{{\}}|\}})", re.M).search(text, it.start())
        whole = text[it.start() : end.end() if end else None]
        head = re.split(r"\n\s*(?:requires|ensures|ghost)\b|\{", whole)[0]
        yield bool(it[2]), it[3], head.partition("->")[2], whole


def arguments(text):
    return (text or "").removeprefix("<").removeprefix("'a").strip(", >")


class Types:
    """The libraries' types by name: what their methods answer, and what their fields and variants hold."""

    def __init__(self):
        self.methods, self.parts, self.same = {}, {}, {}
        texts = [text for crate in libraries() for _, text, tests in files_of(crate) if not tests]
        shown = {name.split("::")[-1] for crate in libraries() for name in names(crate)}
        # A view that is a private type at one argument is a type of its own, and each other alias is what it names.
        views = {}
        for text in texts:
            for name, base, given in re.findall(r"(?m)^pub type (\w+)(?:<[^=]*>)? = (\w+)(<.*>)?;", text):
                if base in shown:
                    self.same[name] = base
                else:
                    views.setdefault(base, []).append((name, arguments(given)))
            for name, body in re.findall(r"(?ms)^(?:pub )?(?:struct|enum) (\w+)[^;{(]*\{(.*?)^\}", text):
                held = re.findall(r"(?m)^    (?:pub )?(\w+)(?:: |\()(.*?)\)?,$", body)
                self.parts.setdefault(name, []).extend(held)
        for text in texts:
            block = r"(?ms)^impl(?:<([^{]*?)>)? (\w+)(<(?:[^{}]|\{ \w+ \})*>)?\s*\{\n(.*?)^\}"
            for params, base, given, body in re.findall(block, text):
                given, params = arguments(given), params.replace("const ", "")
                for name, at in views.get(base, [(base, given)]):
                    if at == given or f"{given}:" in params:
                        self.add(name, body)

    def add(self, name, body):
        own = self.methods.setdefault(name, {})
        for public, method, answer, _ in functions_of(body):
            if public:
                own[method] = re.sub(r"\bSelf\b", name, answer)

    def at_hand(self, text, answers):
        """Returns the types of which a function with this text can have a value."""
        here, found = words(text), set()
        new = here | {it for name in here for it in words(answers.get(name, ""))}
        # A function may answer an alias.
        new |= {it for name in new for it in words(answers.get(name, ""))}
        while new := (new | {self.same.get(it) for it in new}) & (self.methods.keys() | self.parts.keys()) - found:
            found |= new
            held = [answer for it in new for name, answer in self.methods.get(it, {}).items() if f".{name}" in text]
            held += [answer for it in new for name, answer in self.methods.get(it, {}).items() if f"{it}::{name}" in text]
            held += [part for it in new for name, part in self.parts.get(it, []) if name in here]
            new = {it for answer in held for it in words(answer)}
        return found
