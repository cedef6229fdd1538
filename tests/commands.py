"""The table of the commands, share/commands.json, as the tests read it."""

import json
import os

TOP = os.path.dirname(os.path.dirname(os.path.abspath(__file__)))
with open(os.path.join(TOP, "share", "commands.json"), encoding="utf-8") as it:
    TABLE = json.load(it)
ROWS = {row["word"]: row for row in TABLE["commands"]}
# All words; those that search, and so write a certificate, of a file; those that list all minimal sets.
WORDS = tuple(ROWS)
SEARCHES = tuple(word for word, row in ROWS.items() if "makes" in row and row["files"][0] == "CONFIG")
LISTS = tuple(word for word, row in ROWS.items() if row.get("lists") in ("b", "q"))
