"""The library that counts and breaks a desk's calls: building it, its variables, its trace (faults.c says what they mean)."""

import struct
import subprocess
from pathlib import Path
from typing import NamedTuple

from judge import ROOT, Trouble

SOURCE = Path(__file__).resolve().parent / "faults.c"
BUILT = ROOT / "target" / "drill" / "faults.so"


class Event(NamedTuple):
    op: str
    name: str
    number: int
    data: bytes


def library():
    """The library's path, once it is there and as new as its source."""
    if not BUILT.exists() or BUILT.stat().st_mtime < SOURCE.stat().st_mtime:
        BUILT.parent.mkdir(parents=True, exist_ok=True)
        fresh = BUILT.with_suffix(f".{id(BUILT)}.tmp")
        try:
            subprocess.run(["gcc", "-O1", "-shared", "-fPIC", "-o", fresh, SOURCE, "-ldl", "-lpthread"], check=True)
        except (OSError, subprocess.CalledProcessError) as error:
            raise Trouble(f"gcc does not build {SOURCE}: {error}") from None
        fresh.replace(BUILT)
    return BUILT


def variables(folder, trace=None, at=None, how=None, lasting=False, ops=None, name=None):
    """The environment of a desk whose calls are counted, traced, or broken."""
    given = {"LD_PRELOAD": library(), "DRILL_FOLDER": folder.resolve(), "DRILL_TRACE": trace, "DRILL_AT": at, "DRILL_HOW": how,
             "DRILL_LASTING": lasting or None, "DRILL_OPS": ops, "DRILL_NAME": name}
    return {key: str(value) for key, value in given.items() if value is not None}


def read_trace(path):
    """The events of a trace; one that a death cut short is left out."""
    data, at, events = path.read_bytes() if path.exists() else b"", 0, []
    while at + 2 <= len(data):
        name_end = at + 2 + data[at + 1]
        if name_end + 12 > len(data):
            break
        number, length = struct.unpack_from("<QI", data, name_end)
        if name_end + 12 + length > len(data):
            break
        body = data[name_end + 12:name_end + 12 + length]
        events.append(Event(chr(data[at]), data[at + 2:name_end].decode(), number, body))
        at = name_end + 12 + length
    return events
