"""Reads what `quorum_cli export` puts out, and writes the lines of a certificate that it tells."""

from __future__ import annotations

import os
import re
import sys
from collections.abc import Callable


class Exported:
    """The version of the formula, the header of a certificate, the numbers of the formula, and what the nodes'
    variables stand for."""

    def __init__(self, path: str) -> None:
        self.sides = {}
        comments = []
        with open(path, errors="replace") as it:
            for line in it:
                words = line.split()
                if words[:2] == ["p", "cnf"]:
                    if len(words) != 4 or not (words[2] + words[3]).isdecimal():
                        raise ValueError(f"{path} has no line `p cnf VARIABLES CLAUSES`, but `{' '.join(words)[:80]}`")
                    self.variables, self.clauses = words[2:]
                    break
                comments.append(line[2:].rstrip("\n"))
        # an export without the line of the version is of version 2
        self.version = comments.pop(0).split(" ")[1] if comments and comments[0].startswith("formula ") else "2"
        if [line.split(" ")[0] for line in comments[:3]] != ["config", "from", "faulty"]:
            raise ValueError(f"{path} is not what `quorum_cli export` puts out: it does not begin with its comments")
        if not hasattr(self, "clauses"):
            raise ValueError(f"{path} is cut off: it has no line `p cnf VARIABLES CLAUSES`")
        self.header = comments[:3]
        for line in comments[3:]:
            found = re.fullmatch(r"([1-9][0-9]*) ([ab]) (\S+)", line)
            if not found:
                raise ValueError(f"{path} is not what `quorum_cli export` puts out: its comment `{line[:80]}`")
            self.sides[int(found[1])] = (found[2], found[3])

    def certificate(self, kind: str, body: list[str]) -> str:
        return "".join(
            line + "\n" for line in [f"fbas-cert {self.version}", *self.header, "kind " + kind, *body, "end"]
        )


def run(make: Callable[[Exported, str], str]) -> int:
    """Puts out the certificate of the two files that the words name."""
    return run_on_two(lambda formula, other: sys.stdout.write(make(Exported(formula), other)))


def told(why: Exception) -> str:
    """What an error says: of a file first its name, and no number of the system."""
    if isinstance(why, OSError) and why.filename and why.strerror:
        return f"{why.filename}: {why.strerror.lower()}"
    return str(why)


def run_on_two(work: Callable[[str, str], object]) -> int:
    """Does the work of a tool on the two files that its words name; 1 where that fails, 2 for other words. Either is
    told in one line."""
    doc, name = (sys.modules["__main__"].__doc__ or "").strip(), os.path.basename(sys.argv[0])
    if sys.argv[1:] in (["-h"], ["--help"]):
        print(doc)
        return 0
    if len(sys.argv) != 3:
        print(f"{name}: two files are wanted: {doc.splitlines()[2].strip()}", file=sys.stderr)
        return 2
    try:
        work(sys.argv[1], sys.argv[2])
        sys.stdout.flush()
    except BrokenPipeError:
        # (whoever reads the output has seen enough, and Python would flush it once more)
        os.dup2(os.open(os.devnull, os.O_WRONLY), sys.stdout.fileno())
        return 1
    except (OSError, ValueError) as why:
        print(f"{name}: {told(why)}", file=sys.stderr)
        return 1
    except KeyboardInterrupt:
        return 130
    return 0
