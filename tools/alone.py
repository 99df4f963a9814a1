"""What a check of one crate over the libraries that a run of `rt ci` left needs. Such a check reads a function again in
seconds, and is no verdict of the gate."""

import importlib.machinery
import importlib.util
import os
import shutil
import sys
import threading
from pathlib import Path

sys.dont_write_bytecode = True
PARTS = ("src", "specs", "proofs")
# rt reads the crates of the folder that a process is in, which its threads share.
IN_A_FOLDER = threading.Lock()


def toolchain():
    """The module of the `rt` that is on the path."""
    loader = importlib.machinery.SourceFileLoader("rt_of_the_kit", os.path.realpath(shutil.which("rt")))
    made = importlib.util.module_from_spec(importlib.util.spec_from_loader("rt_of_the_kit", loader))
    loader.exec_module(made)
    made.rtlib.Crate.cuts_libraries = True
    made.rtlib.guarded()
    return made


RT = toolchain()


def crates_at(top):
    """The crates of the repository there, by name."""
    with IN_A_FOLDER:
        here = os.getcwd()
        os.chdir(top)
        try:
            return {it.name: it for it in RT.rtlib.crates_below(str(top))}
        finally:
            os.chdir(here)


def text_of(top, crate):
    """The files that a proof of the crate reads, with their texts."""
    folder = top / "crates" / crate
    files = [file for part in PARTS for file in sorted((folder / part).rglob("*")) if file.is_file()]
    return [(str(it.relative_to(folder)), it.read_bytes()) for it in files]


def stale_library(top, over, libraries):
    """The first of these libraries that `rt ci` hasn't left in that clone with the text that it has here, or None."""
    for name in libraries:
        folder = over / "crates" / name
        left = folder / "out" / "rlib" / f"{name}.rlib" / "format"
        files = [it for part in PARTS for it in (folder / part).rglob("*") if it.is_file()]
        changed = max((it.stat().st_mtime for it in files), default=0.0)
        # (what rt kept of an earlier run is linked here, which leaves the file's own time as it was)
        if not left.is_file() or left.stat().st_ctime < changed or text_of(top, name) != text_of(over, name):
            return name
    return None


def words_of_check(crate, only, kept, by_sources=False):
    """The words of rattle's check of these functions alone, over built libraries or over their sources."""
    functions = [it for name in only for it in ("--only", name)]
    words = [*crate.words(["--jobs", "1"], keeps=False, as_source=by_sources), *functions, "--incremental", kept]
    return [*RT.rtlib.guarded(), RT.rtlib.RATTLE, "check", *words]
