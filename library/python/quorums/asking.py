"""Asks the library, by the table of commands: checks arguments, and makes what is answered a value or an exception."""

from __future__ import annotations

from typing import Any, Iterable, Mapping, Optional, Union

from . import binding, usage, worker
from .replies import NO, UNKNOWN, YES, Answer

MEMORY, TOO_LARGE = 8, 9
# What the methods take: several names, or one text of names with commas.
Several = Union[str, Iterable[str]]
Value = Union[None, int, Several]


class Refused(ValueError):
    """The question, a file or a certificate is refused: `status` is 3, 4, 5, 6, 7 or 10, and `text` says the first
    fault."""

    def __init__(self, status: int, text: str) -> None:
        super().__init__(text.strip().partition("\n")[0] or f"status {status}")
        self.status, self.text = status, text

    def __reduce__(self) -> tuple[type[Refused], tuple[int, str]]:
        return type(self), (self.status, self.text)


class TooLarge(ValueError):
    """A formula would have more than 4,000,000 variables: ask about a part, by `from_node`."""


def spelled(name: str, place: str, value: object) -> str:
    """The text of an option's value: a number, a name, or some names. Raises TypeError with the argument's name."""
    if place in ("UNITS", "VERSION"):
        return str(binding.as_count(name, value))
    if isinstance(value, str):
        return value
    if place == "NAME" or isinstance(value, (bytes, bytearray, memoryview)) or not isinstance(value, Iterable):
        raise TypeError(
            f"{name} must be {'a str' if place == 'NAME' else 'a str or several'}, not {type(value).__name__}"
        )
    names = list(value)
    for it in names:
        if not isinstance(it, str):
            raise TypeError(f"{name} must have str, not {type(it).__name__}")
    return ",".join(names)


def given(command: usage.Command, options: Mapping[str, object]) -> list[str]:
    """The words of a command's options. Raises TypeError for an argument that it does not take, and for one that is
    missing."""
    words = []
    for name in options:
        if not command.takes(name):
            raise TypeError(f"{command.word} takes no argument {name}")
    for option in command.options:
        value = options.get(option.argument)
        if value is not None:
            words.append(f"{option.flag}={spelled(option.argument, option.place, value)}")
        elif option.needed and option.flag != "--orgs":
            raise TypeError(f"{command.word} needs the argument {option.argument}")
    return words


def row(word: str) -> usage.Command:
    """The row of a command."""
    found = usage.commands().get(word)
    if found is None:
        raise TypeError(f"the library has no command {word}")
    return found


def answered(
    command: str, words: list[str], timeout: Optional[float], stop: Optional[worker.Stop], **files: Any
) -> Answer:
    """What is answered to the words, in a process of its own if it may be ended."""
    if timeout is None and stop is None:
        status, text, made = binding.answer(words, **files)
    else:
        asked = [files.get(name, b"") for name in ("config", "orgs", "script", "cert")]
        status, text, made = worker.run(
            "answer", words, *asked, files.get("room", binding.ROOM), timeout=timeout, stop=stop
        )
    if status == MEMORY:
        raise MemoryError("the run wants more memory than there is")
    if status == TOO_LARGE:
        raise TooLarge(text.decode().strip())
    if status not in (YES, NO, UNKNOWN):
        raise Refused(status, text.decode())
    return Answer(command, tuple(words), status, text.decode(), made)


def counted(
    command: str,
    count: int,
    options: dict[str, object],
    timeout: Optional[float],
    stop: Optional[worker.Stop],
    room: int,
) -> Answer:
    """What is answered to a command that is about a number, and writes a certificate."""
    words = [command, str(binding.as_count("count", count)), "made", *given(row(command), options)]
    return answered(command, words, timeout, stop, room=room)
