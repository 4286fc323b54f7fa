"""The wrong programs of the crates: crates/CRATE/must-fail/LABEL.edit, read as rt reads them.

An edit names files of its crate, each by a line `file: `, and behind it pairs of a line `old: ` and a line `new: `, put in
one after the other, so that an old text is looked for in what the pairs before it have left. An old text stands once. Any
other line is a comment; the first one says what the wrong program does.
"""

from pathlib import Path

ROOT = Path(__file__).resolve().parent.parent.parent


def find(names):
    """The files of the edits of these crates (CRATE), of these edits (CRATE/LABEL), or of all if none is named."""
    found = []
    for name in names or ["*"]:
        crate, _, label = name.partition("/")
        edits = sorted(ROOT.glob(f"crates/{crate}/must-fail/{label or '*'}.edit"))
        if not edits:
            raise SystemExit(f"must-fail: there is no edit at crates/{crate}/must-fail{'/' + label if label else ''}")
        found += edits
    return found


def crate_of(edit):
    return edit.parent.parent.name


def replacements(text):
    """The file, the old and the new text of each pair."""
    file = old = ""
    for line in text.splitlines():
        if line.startswith("file: "):
            file = line.removeprefix("file: ")
        elif line.startswith("old: "):
            old = line.removeprefix("old: ")
        elif line.startswith("new:"):
            yield file, old, line.removeprefix("new:").removeprefix(" ")
            old = ""


def applied(text, read):
    """What an edit makes of its crate's files, and what is wrong with it; `read` gives the text of a file of the crate."""
    files, faults = {}, []
    for file, old, new in replacements(text):
        try:
            files.setdefault(file, read(file))
        except OSError as error:
            faults.append(f"{file or 'no file'} cannot be read: {error.strerror}")
            continue
        times = files[file].count(old) if old else 0
        if times != 1:
            faults.append(f"an old text stands {times} times in {file}: {old.strip()[:80]}")
        files[file] = files[file].replace(old, new, 1)
    if not files and not faults:
        faults.append("it changes nothing")
    return files, faults
