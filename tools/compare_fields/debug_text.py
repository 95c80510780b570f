"""Reads what `{:?}` writes: structs as dictionaries, lists of numbers as bytes, and `Name(..)` as a pair."""

import re

TOKEN = re.compile(r"\s*(\[[\d, ]*\]|\w+|[\[\]{}(),:])")


def read(text):
    tokens = TOKEN.findall(text)
    value, end = value_at(tokens, 0)
    assert end == len(tokens), text
    return value


def value_at(tokens, at):
    word = tokens[at]
    after = tokens[at + 1] if at + 1 < len(tokens) else ""
    if word[0] == "[" and word[-1] == "]":
        try:
            return bytes(map(int, word[1:-1].replace(",", " ").split())), at + 1
        except ValueError:
            return [int(it) for it in word[1:-1].split(",")], at + 1
    if word in "[(":
        return values_to("])"["[(".index(word)], tokens, at + 1)
    if word.isdigit():
        return int(word), at + 1
    if after == "(":
        held, end = values_to(")", tokens, at + 2)
        # What is there, and most names of a number alone, are what they hold.
        if word == "Some" or (len(held) == 1 and isinstance(held[0], int) and word != "ParameterProblem"):
            return held[0], end
        return (word, *held), end
    if after == "{":
        fields, at = {"": word}, at + 2
        while tokens[at] != "}":
            fields[tokens[at]], end = value_at(tokens, at + 2)
            at = end + (tokens[end] == ",")
        return fields, at + 1
    return {"true": 1, "false": 0, "None": None}.get(word, word), at + 1


def values_to(close, tokens, at):
    values = []
    while tokens[at] != close:
        value, end = value_at(tokens, at)
        values.append(value)
        at = end + (tokens[end] == ",")
    return values, at + 1
