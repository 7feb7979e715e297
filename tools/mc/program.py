"""The built program: where it is, and what it answers.

A tool takes the first that there is of these:

1. the program that `mc --program PATH ..`, or the environment's MCDEC, names;
2. `crates/mcdec/out/mcdec`, which `rt run` and `rt ci` leave there with its proof, where it is newer than each file of the crates that it is made of;
3. `.mc/REVISION/mcdec`, which `mc build` kept, without proof. REVISION is a sum of the sources, so a tree that was edited has none;
4. else it is built now, as by `mc build`.
"""
import functools
import hashlib
import os
import pathlib
import shlex
import subprocess
import sys

TOP = pathlib.Path(__file__).resolve().parents[2]
CRATES = TOP / "crates"
KEPT = TOP / ".mc"
PROVED = CRATES / "mcdec" / "out" / "mcdec"
VARIABLE = "MCDEC"
# Whether what is passed on is shown (`mc -v`).
verbose = False


class NoProgram(Exception):
    """Why there is no program to run, in a line."""


def crates_of_program():
    """The crates that the program is made of: `mcdec`, and what it uses by crates.txt."""
    uses = {}
    for line in (TOP / "crates.txt").read_text(encoding="utf8").splitlines():
        name, colon, libraries = line.partition("#")[0].partition(":")
        if colon:
            uses[name.split()[0]] = libraries.split()
    found, todo = set(), ["mcdec"]
    while todo:
        crate = todo.pop()
        if crate in uses and crate not in found:
            found.add(crate)
            todo += uses[crate]
    return sorted(found)


def files_in(*folders):
    """The files below these folders of each crate of the program."""
    for crate in crates_of_program():
        for folder in folders:
            yield from sorted(path for path in (CRATES / crate / folder).rglob("*") if path.is_file())


def revision():
    """A sum of all that the program is made of: the code of its crates, and which crates there are."""
    total = hashlib.sha256(" ".join(crates_of_program()).encode())
    for path in files_in("src"):
        content = path.read_bytes()
        total.update(f"\n{path.relative_to(CRATES)} {len(content)}\n".encode())
        total.update(content)
    return total.hexdigest()[:16]


def named():
    """The program that the user named, or None."""
    path = os.environ.get(VARIABLE)
    if not path:
        return None
    if not is_runnable(path):
        raise NoProgram(f"{path}: no program ({VARIABLE} or --program names it)")
    return pathlib.Path(os.path.abspath(path))


def proved():
    """The program that was proved, where it is of the present sources, or None."""
    if not is_runnable(PROVED):
        return None
    built = PROVED.stat().st_mtime_ns
    return PROVED if all(path.stat().st_mtime_ns <= built for path in files_in("src", "specs", "proofs")) else None


def kept():
    """The program that was built without proof and kept for the present sources, or None."""
    path = KEPT / revision() / "mcdec"
    return path if is_runnable(path) else None


def find():
    """The program, where there is one, or None."""
    return named() or proved() or kept()


def path():
    """The program. It is built first where there is none. Raises NoProgram where that fails."""
    return _path(os.environ.get(VARIABLE))


@functools.lru_cache(None)
def _path(name):
    """As above, looked for once for each name that the user gives."""
    found = find()
    if found is None:
        from mc import build

        print("mc: no program of these sources is built yet; `mc build` is run first", file=sys.stderr)
        found = build.build()
    return found


def run(arguments, **settings):
    """Runs the program on these words, its output captured as text where `settings`, which are those of subprocess.run, don't say otherwise."""
    words = [str(path()), *map(str, arguments)]
    settings = settings or {"capture_output": True, "text": True, "encoding": "utf8", "errors": "replace"}
    if verbose:
        print(f"mc: passed on: {shlex.join(words)}", file=sys.stderr, flush=True)
    done = subprocess.run(words, **settings)
    if verbose:
        print(f"mc: status {done.returncode}", file=sys.stderr, flush=True)
    return done


def is_runnable(candidate):
    """Whether there is a file that may be executed."""
    return os.path.isfile(candidate) and os.access(candidate, os.X_OK)
