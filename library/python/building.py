"""Makes the wheel for pip out of what lies in this folder. Nothing is fetched for it: it needs no setuptools."""

from __future__ import annotations

import base64
import hashlib
import os
import sysconfig
import tomllib
import zipfile
from typing import Any

HERE = os.path.dirname(os.path.abspath(__file__))
# What of the package's folder is part of it.
PARTS = (".py", ".so", ".json", "py.typed")
WHEEL = "Wheel-Version: 1.0\nGenerator: quorums\nRoot-Is-Purelib: false\nTag: %s\n"


def held(*names: str) -> bytes:
    with open(os.path.join(HERE, *names), "rb") as it:
        return it.read()


def metadata(project: dict[str, Any], version: str) -> str:
    """The METADATA of the wheel: what pyproject.toml says."""
    lines = [
        "Metadata-Version: 2.1",
        f"Name: {project['name']}",
        f"Version: {version}",
        f"Summary: {project['description']}",
        f"License: {project['license']['text']}",
        f"Requires-Python: {project['requires-python']}",
    ]
    for extra, wanted in project["optional-dependencies"].items():
        lines += [f"Provides-Extra: {extra}", *(f'Requires-Dist: {it}; extra == "{extra}"' for it in wanted)]
    return "".join(line + "\n" for line in lines)


def entry_points(project: dict[str, Any]) -> str:
    return "[console_scripts]\n" + "".join(f"{name} = {place}\n" for name, place in project["scripts"].items())


def build_wheel(wheel_directory: str, config_settings: object = None, metadata_directory: object = None) -> str:
    """Writes the wheel, as PEP 517 has it, and returns its name."""
    if not os.path.exists(os.path.join(HERE, "quorums", "libquorum.so")):
        raise SystemExit("libquorum.so is not here: run tools/build/library, and install library/out/python")
    project = tomllib.loads(held("pyproject.toml").decode())["project"]
    version, tag = held("VERSION").decode().strip(), "py3-none-" + sysconfig.get_platform().replace("-", "_").replace(
        ".", "_"
    )
    files = {
        "quorums/" + name: held("quorums", name)
        for name in sorted(os.listdir(os.path.join(HERE, "quorums")))
        if name.endswith(PARTS)
    }
    info = f"quorums-{version}.dist-info/"
    files[info + "METADATA"] = metadata(project, version).encode()
    files[info + "WHEEL"] = (WHEEL % tag).encode()
    files[info + "entry_points.txt"] = entry_points(project).encode()
    lines = [
        f"{name},sha256={base64.urlsafe_b64encode(hashlib.sha256(data).digest()).rstrip(b'=').decode()},{len(data)}"
        for name, data in files.items()
    ]
    files[info + "RECORD"] = "".join(line + "\n" for line in [*lines, info + "RECORD,,"]).encode()
    name = f"quorums-{version}-{tag}.whl"
    with zipfile.ZipFile(os.path.join(wheel_directory, name), "w", zipfile.ZIP_DEFLATED) as it:
        for path, data in files.items():
            # (the same bytes whenever it is made)
            it.writestr(zipfile.ZipInfo(path), data, zipfile.ZIP_DEFLATED)
    return name
