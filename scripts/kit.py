"""What the scripts share that prove and build the program: the kit's command as a module, its crates, what is kept, and how they end."""
import contextlib
import ctypes
import hashlib
import importlib.machinery
import importlib.util
import json
import os
import shutil
import signal
import sys
from pathlib import Path

sys.dont_write_bytecode = True
# The signal that a process gets when the process that started it ends (prctl(2)).
PR_SET_PDEATHSIG = 1
ROOT = Path(__file__).resolve().parent.parent
PROGRAM = "oe_server"
OUT = ROOT / "crates" / PROGRAM / "out"
# Folders of a crate that no proof reads.
UNREAD = ("out", "must-fail", "wrong")


def say(text):
    print(f"oe_server: {text}", file=sys.stderr, flush=True)


def load_rt():
    """Loads the kit's own command, which knows how a crate is read, proved and built."""
    path = shutil.which("rt")
    if path is None:
        say("the toolchain's command rt is not found; README.md, Install, says what it is")
        sys.exit(2)
    loader = importlib.machinery.SourceFileLoader("rt_command", os.path.realpath(path))
    made = importlib.util.module_from_spec(importlib.util.spec_from_loader("rt_command", loader))
    sys.modules["rt_command"] = made
    loader.exec_module(made)
    find = made.rtlib.Crate.below
    # (found once for each crate: rtlib follows every path of crates.txt each time)
    made.rtlib.Crate.below = lambda crate: crate.__dict__.get("known_below") or crate.__dict__.setdefault("known_below", find(crate))
    return made


def end_with_starter(at_end):
    """Ends this process, after `at_end`, on Ctrl-C, SIGTERM and SIGHUP, and when the process that started it ends, however that ends."""
    starter = os.getppid()

    def end(number, _):
        with contextlib.suppress(Exception):
            at_end()
        os._exit(128 + number)

    for number in (signal.SIGINT, signal.SIGTERM, signal.SIGHUP):
        signal.signal(number, end)
    with contextlib.suppress(OSError, AttributeError):
        ctypes.CDLL(None).prctl(PR_SET_PDEATHSIG, signal.SIGTERM)
    if os.getppid() != starter:
        end(signal.SIGTERM, None)


def use_store(rt):
    """Has what is proved kept beside the kit, or in a folder of the user's own if that place can't be written."""
    if rt.Kept([]).at is None:
        rt.STORE = f"{os.environ.get('XDG_CACHE_HOME') or os.path.expanduser('~/.cache')}/{PROGRAM}"
        os.makedirs(rt.STORE, 0o700, exist_ok=True)
    return Path(rt.STORE)


def program_crates(rt):
    """Returns the program's crate and those that it stands on, lowest first."""
    rt.rtlib.Crate = rt.Crate
    rt.Crate.allowed = rt.handles_of(str(ROOT))
    program = next(it for it in rt.rtlib.crates_below(str(ROOT)) if it.name == PROGRAM)
    return [*program.below(), program]


def kept_crates(rt, crates):
    """Returns where each crate is kept that a run on this machine has proved as it is now."""
    kept, found = rt.Kept(crates), {}
    for crate in crates:
        if any(it.name not in found for it in crate.below()):
            continue
        place = Path(kept.place(crate, False, kept.key(crate)))
        with contextlib.suppress(OSError, ValueError):
            files = json.loads((place / "made.json").read_text())["files"]
            # (as `rt ci` sums up the library that a crate above reads)
            kept.rlibs[crate.name] = hashlib.sha256(repr([] if crate.is_program else [tuple(it) for it in files]).encode()).hexdigest()
            found[crate.name] = place
    return found


def fill(room, crates):
    """Copies what a proof of these crates reads to a room, as a repository of its own."""
    os.makedirs(f"{room}/.git")
    shutil.copy(ROOT / "HANDLES", room)
    for crate in crates:
        top = lambda at, names, folder=crate.folder: [it for it in names if at == folder and it in UNREAD]
        shutil.copytree(crate.folder, f"{room}/crates/{crate.name}", ignore=top)
    names = {it.name for it in crates}
    lines = (ROOT / "crates.txt").read_text().splitlines(True)
    Path(f"{room}/crates.txt").write_text("".join(it for it in lines if it.split("#")[0].split(":")[0].split()[:1] and it.split(":")[0].split()[0] in names))


def place_program(made):
    """Puts the program in its place, beside the one that is there until then."""
    shutil.copyfile(made, OUT / f"{PROGRAM}.new")
    (OUT / f"{PROGRAM}.new").chmod(0o755)
    os.replace(OUT / f"{PROGRAM}.new", OUT / PROGRAM)


def sum_of_texts(crate):
    """Returns a sum of a crate's name, its libraries, and all its texts that a proof reads."""
    told = hashlib.sha256(repr((crate.name, [it.name for it in crate.deps], list(crate.of_kit))).encode())
    for part in ("src", "specs", "proofs"):
        for path in sorted(Path(crate.folder, part).rglob("*")):
            if path.is_file():
                told.update(repr((str(path.relative_to(crate.folder)), path.read_bytes())).encode())
    return told.hexdigest()


def sum_of_file(path):
    """Returns the sum of a file's bytes."""
    told = hashlib.sha256()
    with open(path, "rb") as file:
        while block := file.read(1 << 20):
            told.update(block)
    return told.hexdigest()
