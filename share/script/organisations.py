"""Says what of a file of organisations does not fit a configuration: organisations.py CONFIG ORGS IDS

On standard error stands how many validators of ORGS are not in CONFIG, and that IDS, a list of organisations separated
by commas, has none that is. The output is IDS, where the name or the home domain of one organisation alone is replaced
by its id. What is not of the form of these files is left to the program, which refuses it.
"""

import json
import sys

# The program refuses a larger file.
MOST_BYTES = 1 << 24


def elements_of(path: str) -> list[dict[str, object]]:
    """The objects of a file that is an array."""
    with open(path, "rb") as file:
        found = json.loads(file.read(MOST_BYTES + 1))
    return [it for it in found if isinstance(it, dict)] if isinstance(found, list) else []


def validators_of(organisation: dict[str, object]) -> list[str]:
    keys = organisation.get("validators")
    return [it for it in keys if isinstance(it, str)] if isinstance(keys, list) else []


def id_of(item: str, organisations: list[dict[str, object]]) -> str:
    """The id of the organisation that an item of a list means; the item itself if it is an id, or if that is not
    plain."""
    if any(it.get("id") == item for it in organisations):
        return item
    meant = {
        it["id"]
        for it in organisations
        if item in (it.get("name"), it.get("homeDomain")) and isinstance(it.get("id"), str)
    }
    return str(meant.pop()) if len(meant) == 1 else item


def main(config: str, orgs: str, listed: str) -> None:
    keys = {it.get("publicKey") for it in elements_of(config)}
    organisations = elements_of(orgs)
    named = [key for it in organisations for key in validators_of(it)]
    absent = sum(key not in keys for key in named)
    if absent:
        print(f"quorum_cli: {absent} of {len(named)} validators of {orgs} are not in {config}", file=sys.stderr)
    ids = [id_of(item, organisations) for item in listed.split(",")] if listed else []
    chosen = [it for it in organisations if it.get("id") in ids]
    if chosen and not any(key in keys for it in chosen for key in validators_of(it)):
        print(
            f"quorum_cli: --faulty-orgs deletes nobody: no validator of these organisations is in {config}",
            file=sys.stderr,
        )
    sys.stdout.write(",".join(ids))


if __name__ == "__main__":
    try:
        main(*sys.argv[1:4])
    except (OSError, ValueError, RecursionError):
        sys.exit(1)
