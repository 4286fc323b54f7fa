"""Wrong desks: edits of the desk's source (wrong/*.edit), each built in a folder of its own, and the drill that must catch it.

An edit is a text file: lines `drill NAME` and `what TEXT`, then for each file `file PATH` (in desk/) and the changes in it, each the
old lines between <<< and ===, and the new ones between === and >>>. The old text must stand in the file once."""

import os
import re
import shutil
import subprocess
from pathlib import Path
from typing import NamedTuple

from judge import ROOT, Trouble

HERE = Path(__file__).resolve().parent
# The rounds that a drill has to catch a wrong desk in: more than in the short run, since it ends when it has caught it.
ROUNDS = {"kill": 40, "calls": 400, "power": 800, "damage": 400, "orders": 6, "odd": 1}


class Edit(NamedTuple):
    name: str
    drill: str
    what: str
    changes: list


def read_edit(path):
    text = path.read_text()
    head = dict(line.split(" ", 1) for line in text.split("\n\n")[0].split("\n"))
    changes = []
    for part in text.split("\nfile ")[1:]:
        file = part.split("\n", 1)[0]
        changes += [(file, *change) for change in re.findall(r"<<<\n(.*?)===\n(.*?)>>>\n", part, re.DOTALL)]
    if set(head) != {"drill", "what"} or head["drill"] not in ROUNDS or not changes:
        raise Trouble(f"{path} is no edit")
    return Edit(path.stem, head["drill"], head["what"], changes)


def names():
    return sorted(path.stem for path in (HERE / "wrong").glob("*.edit"))


def edits():
    return [read_edit(HERE / "wrong" / f"{name}.edit") for name in names()]


def apply(edit, desk):
    for file, old, new in edit.changes:
        path = desk / file
        text = path.read_text()
        if text.count(old) != 1:
            raise Trouble(f"{edit.name}: the old text stands {text.count(old)} times in desk/{file}, not once:\n{old}")
        path.write_text(text.replace(old, new))


def build(edit, place):
    """The program of a wrong desk, built in a folder that keeps what does not change between them."""
    # The wrapper keeps its times and is not built again; the desk gets new ones and is.
    for name, copied in (("bindings/rust", shutil.copy2), ("desk", shutil.copyfile)):
        shutil.rmtree(place / name, ignore_errors=True)
        shutil.copytree(ROOT / name, place / name, ignore=shutil.ignore_patterns("drill", "target"), copy_function=copied)
    apply(edit, place / "desk")
    env = {**os.environ, "CARGO_TARGET_DIR": str(place / "target"), "CAVIAR_LIB_DIR": str(ROOT / "target" / "staticlib"),
           "CARGO_NET_OFFLINE": "true", "PATH": f"{os.environ.get('PATH', os.defpath)}:{Path.home()}/.cargo/bin"}
    command = ["cargo", "build", "--quiet", "--locked", "--bin", "desk", "--manifest-path", place / "desk" / "Cargo.toml"]
    done = subprocess.run(command, env=env, capture_output=True, text=True, check=False)
    if done.returncode:
        raise Trouble(f"{edit.name} does not build:\n{done.stderr}")
    return place / "target" / "debug" / "desk"
