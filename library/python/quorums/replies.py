"""What the program prints, as values."""

from __future__ import annotations

from typing import TYPE_CHECKING, Any, Optional, Union

if TYPE_CHECKING:
    import pandas

YES, NO, UNKNOWN = 0, 1, 2
# Lines whose words are names, after the first one. A name may be all digits.
NAMES = {"closure", "greatest", "set", "first", "second", "unmet", "quorum", "from", "faulty"}
# Commands that are answered yes or no.
VERDICTS = {"intersect", "available", "dset", "blocks", "vblocks", "splits", "trial"}
# Commands whose one line is a list of names.
PLAIN = {"closure", "greatest"}

Word = Union[str, int]
Names = tuple[str, ...]
# What an answer says: a verdict, a kind or a text, names, sets, or numbers by their words.
Value = Union[None, bool, str, Names, tuple[Names, ...], dict[str, int]]


def typed(line: list[str]) -> tuple[Word, ...]:
    """The words of a line after its first one, with numbers as numbers."""
    head, rest = line[0], line[1:]
    if head in NAMES or head in ("repeated", "c"):
        return tuple(rest)
    names = 2 if head == "threshold" else 0
    return tuple(
        int(word) if at >= names and word.isascii() and word.isdigit() else word for at, word in enumerate(rest)
    )


class Answer:
    """What was answered to a command: its status, its text, the certificate of a search as bytes, and what they say
    as values."""

    def __init__(self, command: str, words: tuple[str, ...], status: int, text: str, certificate: bytes) -> None:
        self.command, self.words, self.status, self.text, self.certificate = command, words, status, text, certificate
        self.lines: list[tuple[str, tuple[Word, ...]]] = [
            (line.split(" ")[0], typed(line.split(" "))) for line in text.splitlines()
        ]

    def all(self, word: str) -> list[tuple[Word, ...]]:
        """The other words of each line that begins with this one."""
        return [rest for head, rest in self.lines if head == word]

    def __getitem__(self, word: str) -> tuple[Word, ...]:
        """The other words of the first line that begins with this one; numbers are numbers."""
        found = self.all(word)
        if not found:
            raise KeyError(word)
        return found[0]

    def __contains__(self, word: str) -> bool:
        return bool(self.all(word))

    def __bool__(self) -> bool:
        raise TypeError("an answer is not true or false: look at its yes, or its value")

    @property
    def known(self) -> bool:
        """Whether it was found out: the budget did not end it."""
        return self.status != UNKNOWN or self.command == "check"

    @property
    def yes(self) -> Optional[bool]:
        """Whether the answer to a question of yes or no is yes; None for unknown."""
        if self.command not in VERDICTS:
            raise TypeError(f"{self.command} is not answered yes or no: look at its value")
        return {YES: True, NO: False}.get(self.status)

    @property
    def kind(self) -> str:
        """What kind of certificate `check` accepted, as `pair` (a network that can fork) or `refutation` (one that
        cannot)."""
        return str(self["accepted"][0])

    @property
    def sets(self) -> tuple[Names, ...]:
        """The sets that are listed, each in name order."""
        return tuple(tuple(map(str, rest)) for rest in self.all("set"))

    @property
    def size(self) -> Optional[int]:
        """How many nodes a smallest set has; None if there is none, or it is not known."""
        return len(self.sets[0]) if self.sets and self.known else None

    @property
    def units(self) -> Optional[int]:
        """How many units were spent, if the budget ended the search."""
        number = next((rest[-1] for _, rest in self.lines if rest[:1] == ("unknown",)), None)
        return number if isinstance(number, int) else None

    @property
    def value(self) -> Value:
        """What was answered: True, False, names, sets, numbers, the kind of a certificate, or the text. None for
        unknown, and for a smallest set where there is none."""
        if self.command in VERDICTS:
            return self.yes
        if self.command == "check":
            return self.kind
        if not self.known:
            return None
        if self.command in PLAIN:
            return tuple(map(str, self[self.command]))
        if self.command.startswith("least"):
            return self.sets[0] if self.sets else None
        if self.command == "show":
            return {word: int(self[word][0]) for word in ("nodes", "entries", "unset")}
        if self.command in self and isinstance(self[self.command][0], int):
            return self.sets
        return self.text

    def frame(self) -> pandas.DataFrame:
        """The words of each line as a pandas DataFrame: the line's number, its first word, and each other word."""
        import pandas

        return pandas.DataFrame(self.table(), columns=["line", "word", "value"])

    def table(self) -> list[tuple[int, str, Any]]:
        """A row for each word after the first one of each line, and one for a line that has no other."""
        return [(at, head, value) for at, (head, rest) in enumerate(self.lines, 1) for value in rest or ("",)]

    def __repr__(self) -> str:
        return f"Answer(status={self.status}, text={self.text!r}, certificate of {len(self.certificate)} bytes)"
