"""A tool's command line: its help is the text at its top, and a fault of its words or files is told in one line."""

from __future__ import annotations

import argparse
import os
import sys
from collections.abc import Callable
from typing import NoReturn


class Words(argparse.ArgumentParser):
    """The words of a tool. Wrong ones end it with 2."""

    def __init__(self, text: str | None) -> None:
        super().__init__(prog=os.path.basename(sys.argv[0]), allow_abbrev=False)
        self.text = (text or "").strip() + "\n"

    def format_help(self) -> str:
        return self.text

    def error(self, message: str) -> NoReturn:
        self.exit(2, f"{self.prog}: {message}; {self.prog} --help says which words it takes\n")


def told(why: Exception) -> str:
    """What an error says: of a file first its name, and no number of the system."""
    if isinstance(why, OSError) and why.strerror:
        return ": ".join(it for it in (why.filename and str(why.filename), why.strerror.lower()) if it)
    return str(why)


def run(main: Callable[[], int]) -> int:
    """The status of a tool; one that cannot read or write a file says which, and ends with 1."""
    try:
        status = main()
        sys.stdout.flush()
        return status
    except BrokenPipeError:
        # (whoever reads the output has seen enough, and Python would flush it once more)
        os.dup2(os.open(os.devnull, os.O_WRONLY), sys.stdout.fileno())
        return 1
    except KeyboardInterrupt:
        return 130
    except (OSError, ValueError) as why:
        print(f"{os.path.basename(sys.argv[0])}: {told(why)}", file=sys.stderr)
        return 1
