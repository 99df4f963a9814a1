"""What tools/try-edits and tools/look-at-edits share: the wrong bodies of the repository, in the gate and beside it.

An edit is a file with lines `file: PATH`, `old: TEXT`, `new: TEXT`, as `rt ci` reads it. Those that the gate tries stand in
crates/CRATE/must-fail/, the others in edits/CRATE/.
"""

import re
from pathlib import Path

TOP = Path(__file__).resolve().parent.parent


def edits_of(top, crate):
    """The edits of a crate, those of the gate first, each by name."""
    gate, beside = top / "crates" / crate / "must-fail", top / "edits" / crate
    return [*sorted(gate.glob("*.edit")), *sorted(beside.glob("*.edit"))]


def crates_with_edits(top):
    """The names of the crates that have an edit, in the order of crates.txt, lowest layers first."""
    lines = (top / "crates.txt").read_text().splitlines()
    names = [line.split(":")[0].split()[0] for line in lines if line.strip() and not line.startswith("#")]
    return [it for it in names if edits_of(top, it)]


def strangers(top):
    """The folders of edits/ that are no crate's, and files that are no edits; `tried` is what tools/try-edits wrote down."""
    known = {it.name for it in (top / "crates").iterdir()}
    folders = [it for it in sorted((top / "edits").iterdir()) if it.name not in ("out", "tried")]
    lost = [it for it in folders if it.name not in known]
    return lost + [it for folder in folders for it in sorted(folder.glob("*")) if it.suffix != ".edit"]


def pairs_of(edit):
    """The changes of an edit in their order: the file, the text that is replaced, the text in its place."""
    path, old, pairs = None, None, []
    for line in edit.read_text().splitlines():
        if line.startswith("file: "):
            path = line[len("file: ") :].strip()
        elif line.startswith("old: "):
            old = line[len("old: ") :]
        elif line.startswith("new:"):
            pairs.append((path, old, line[len("new:") :].removeprefix(" ")))
    return pairs


def refuser_of(crate, edit):
    """The crate whose proof refuses the edit: its own, or the one above it that a line `above: CRATE` names, as one that
    computes definitions on examples."""
    lines = edit.read_text().splitlines()
    return next((it.removeprefix("above: ").strip() for it in lines if it.startswith("above: ")), crate)


def why_not_applicable(top, crate, edit):
    """Why the edit can't be applied to the crate as it stands, or None: each text that it replaces stands once in its file."""
    texts = {}
    pairs = pairs_of(edit)
    if not pairs:
        return "it has no pair of lines 'old:' and 'new:'"
    if not (top / "crates" / refuser_of(crate, edit)).is_dir():
        return f"there is no crate {refuser_of(crate, edit)}"
    for path, old, new in pairs:
        if not path or not old:
            return "a 'new:' line stands before any 'file:' or 'old:' line"
        file = top / "crates" / crate / path
        if path not in texts and not file.is_file():
            return f"there is no {path}"
        text = texts.setdefault(path, file.read_text())
        if text.count(old) != 1:
            return f"its text stands {text.count(old)} times in {path}: {old.strip()}"
        texts[path] = text.replace(old, new)
    return None


def function_of(top, edit):
    """The function that an edit of one file changes, as `TYPE::NAME` or `module::NAME`, or None where no one function holds it all."""
    crate, pairs = edit.parent.parent.name if edit.parent.name == "must-fail" else edit.parent.name, pairs_of(edit)
    found = {name_at(top / "crates" / crate / path, old) if path.startswith("src/") else None for path, old, _ in pairs}
    return found.pop() if len(found) == 1 else None


def name_at(file, text):
    """The function whose body holds the text, as a check prints the end of its name."""
    lines = file.read_text()
    at = lines.index(text)
    head = [it for it in FUNCTION.finditer(lines, 0, at + len(text)) if it.start() <= at or it.group(2)]
    if not head:
        return None
    indent, name = head[-1].group(1), head[-1].group(2)
    owner = OWNER.findall(lines[: head[-1].start()]) if indent else []
    if owner:
        of_trait, of_type = owner[-1]
        return f"{of_type}{of_trait}::{name}"
    module = file.stem
    return name if module in ("lib", "main") else f"{module}::{name}"


FUNCTION = re.compile(r"^( *)(?:pub(?:\([^)]*\))? )?(?:const )?fn (\w+)", re.M)
OWNER = re.compile(r"^impl(?:<.*?>)? (?:(?:\w+::)*(\w+)(?:<[^{\n]*>)? for )?(\w+)", re.M)
