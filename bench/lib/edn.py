"""Reads EDN, as Jepsen writes its histories: each form with the line on which it begins. Tags are passed over."""
import re
from dataclasses import dataclass

TOKEN = re.compile(
    r"""(?P<blank>[\s,]+|;[^\n]*)|(?P<text>"(?:[^"\\]|\\.)*")|(?P<opens>\#?\{|\[|\()|(?P<closes>[\]})])"""
    r"""|(?P<discards>\#_)|(?P<tag>\#[^\s,\[\]{}()"]+)|(?P<word>\\(?:\w+|.)|[^\s,\[\]{}()";\\]+)""",
    re.S,
)
CLOSES = {"[": "]", "(": ")", "{": "}", "#{": "}"}


class BadForm(Exception):
    """Why a text is no EDN."""


@dataclass
class Form:
    """A word or a text as it is written, a list of forms, or a map of them by such words."""

    line: int
    value: object

    def __str__(self):
        if isinstance(self.value, dict):
            return "{" + ", ".join(f"{key} {it}" for key, it in self.value.items()) + "}"
        return "[" + " ".join(map(str, self.value)) + "]" if isinstance(self.value, list) else self.value


def tokens(text):
    """The kind, the text and the line of each token that is no blank."""
    at, line = 0, 1
    while at < len(text):
        found = TOKEN.match(text, at)
        if not found:
            raise BadForm(f"line {line}: {text[at]} begins no form")
        if found.lastgroup != "blank":
            yield found.lastgroup, found[0], line
        line += found[0].count("\n")
        at = found.end()


class Reader:
    def __init__(self, text):
        self.rest = list(tokens(text))[::-1]

    def form(self):
        """The next form, or none before a bracket that closes, and at the end."""
        while self.rest and self.rest[-1][0] in ("tag", "discards"):
            kind, _, line = self.rest.pop()
            if kind == "discards" and not self.form():
                raise BadForm(f"line {line}: #_ has no form after it")
        if not self.rest or self.rest[-1][0] == "closes":
            return None
        kind, text, line = self.rest.pop()
        return self.inner(text, line) if kind == "opens" else Form(line, text)

    def inner(self, opened, line):
        items = self.forms()
        if not self.rest or self.rest.pop()[1] != CLOSES[opened]:
            raise BadForm(f"line {line}: {opened} has no {CLOSES[opened]}")
        if opened != "{":
            return Form(line, items)
        if len(items) % 2:
            raise BadForm(f"line {line}: a map has a key without a value")
        return Form(line, {str(key): it for key, it in zip(items[::2], items[1::2])})

    def forms(self):
        return list(iter(self.form, None))


def read(text):
    """All forms of a text."""
    reader = Reader(text)
    forms = reader.forms()
    if reader.rest:
        raise BadForm(f"line {reader.rest[-1][2]}: {reader.rest[-1][1]} closes nothing")
    return forms
