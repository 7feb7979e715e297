#!/usr/bin/env python3
"""tools/wrong_bodies.py --check: each wrong body can be put in, and none is kept in another form.
tools/wrong_bodies.py --list: how many there are of each crate, those that the gate tries and those tried outside it.
tools/wrong_bodies.py CRATE [NAME ..]: tries a crate's wrong bodies that the gate doesn't.

A wrong body is an edit of a crate's code that turns the meaning of a call; the crate's contracts have to refuse it. The gate
(`rt ci`) tries those in crates/CRATE/must-fail. Those in crates/CRATE/wrong-bodies have the same form, and are tried by this
script where the crate's contracts change: it clones the repository, as it is committed, puts them where the toolchain looks
for them, runs `rt ci CRATE` there and writes into crates/CRATE/wrong-bodies/tried.txt, of each, the day, the toolchain, and
what refused it.
"""
import datetime
import pathlib
import re
import shutil
import subprocess
import sys
import tempfile

TOP = pathlib.Path(__file__).resolve().parent.parent
TOLD = re.compile(r"^(?:rt: )?must-fail (?P<crate>\w+)/(?P<name>[\w-]+)\.edit: (?P<said>.*)$")


def edits(crate, folder):
    return sorted((TOP / "crates" / crate / folder).glob("*.edit"))


def crates():
    return sorted(path.name for path in (TOP / "crates").iterdir() if path.is_dir())


def faults_of(edit):
    """What keeps an edit from being put in: each old text has to stand once in its file, as earlier pairs left it."""
    folder, texts, path, old = edit.parent.parent, {}, None, None
    for line in edit.read_text(encoding="utf8").split("\n"):
        key, _, rest = line.partition(": ")
        if key == "file":
            path = folder / rest.strip()
            if not path.is_file():
                yield f"{rest.strip()} isn't there"
                return
            texts.setdefault(path, path.read_text(encoding="utf8"))
        elif key == "old":
            old = rest
            if texts[path].count(old) != 1:
                yield f"stands {texts[path].count(old)} times: {old}"
        elif key == "new":
            texts[path] = texts[path].replace(old, rest)
        elif line:
            yield f"can't be read: {line}"


def check():
    faults = []
    for crate in crates():
        for folder in ("must-fail", "wrong-bodies"):
            for edit in edits(crate, folder):
                faults += [f"{edit.relative_to(TOP)}: {fault}" for fault in faults_of(edit)]
            for path in (TOP / "crates" / crate / folder).glob("*"):
                if path.suffix != ".edit" and path.name != "tried.txt":
                    faults.append(f"{path.relative_to(TOP)}: neither an edit nor what was tried")
    for fault in faults:
        print(fault)
    return 1 if faults else 0


def list_all():
    rows = [(crate, len(edits(crate, "must-fail")), len(edits(crate, "wrong-bodies"))) for crate in crates()]
    for crate, inside, outside in rows:
        if inside or outside:
            print(f"{crate:20} {inside:4} {outside:4}")
    print(f"{'all':20} {sum(row[1] for row in rows):4} {sum(row[2] for row in rows):4}")
    return 0


def try_outside(crate, names):
    chosen = [edit for edit in edits(crate, "wrong-bodies") if not names or edit.stem in names]
    if not chosen:
        print(f"{crate} has no such wrong body")
        return 1
    with tempfile.TemporaryDirectory() as folder:
        copy = pathlib.Path(folder) / "repository"
        subprocess.run(["git", "clone", "-q", TOP, copy], check=True)
        for in_gate in copy.glob("crates/*/must-fail"):
            shutil.rmtree(in_gate)
        tried = copy / "crates" / crate / "must-fail"
        tried.mkdir()
        for edit in chosen:
            shutil.copy(edit, tried)
        # The gate's own tries of a crate: it begins with what the gate has kept of the crates below.
        done = subprocess.run(["rt", "ci", crate], cwd=copy, capture_output=True, text=True)
    told = [found for found in map(TOLD.match, done.stdout.split("\n")) if found and found["crate"] == crate]
    said = {found["name"]: found["said"] for found in told}
    record(crate, said)
    missing = [edit.stem for edit in chosen if not said.get(edit.stem, "").startswith("refused")]
    for edit in chosen:
        print(f"{edit.stem}: {said.get(edit.stem, 'nothing was said of it')}")
    return 1 if missing else 0


def record(crate, said):
    path = TOP / "crates" / crate / "wrong-bodies" / "tried.txt"
    rows = dict(line.split(": ", 1) for line in path.read_text(encoding="utf8").splitlines()) if path.is_file() else {}
    kit = subprocess.run(["rt", "version"], capture_output=True, text=True).stdout.split()[0]
    day = datetime.date.today().isoformat()
    rows.update({name: f"{day} {kit}: {text}" for name, text in said.items()})
    path.write_text("".join(f"{name}: {rows[name]}\n" for name in sorted(rows)), encoding="utf8")


def main(arguments):
    if arguments == ["--check"]:
        return check()
    if arguments == ["--list"]:
        return list_all()
    if not arguments or arguments[0].startswith("-"):
        print(__doc__)
        return 2
    return try_outside(arguments[0], set(arguments[1:]))


if __name__ == "__main__":
    sys.exit(main(sys.argv[1:]))
