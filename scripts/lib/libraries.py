"""Puts the libraries that a run of `rt ci` has proved where `rt check` takes them.

Usage: python3 -B scripts/lib/libraries.py note         notes what each crate is made of
       python3 -B scripts/lib/libraries.py take FOLDER  takes what was proved of that since then in
                                                        this folder, the repository or a copy
It runs at the top of the repository.

`rt ci` leaves libraries of statements, which are all that a proof above needs, without the stamp by
which `rt check` takes a library. So the stamp is written here, where a crate is what it was before
the run. Such a library fits those alone over which it was built: where one of these is exchanged
the stamp goes, and `rt check` makes the library again.
"""
import contextlib
import fcntl
import functools
import importlib
import json
import os
import pathlib
import shutil
import subprocess
import sys

NOTED = pathlib.Path("build/made-of.json")


@functools.cache
def read_all():
    """The repository's libraries as the toolchain's command reads them, by name, lowest first."""
    page = subprocess.run(["rt", "doc"], capture_output=True, text=True, check=True).stdout.strip()
    sys.path.append(str(pathlib.Path(page).parent / "bin"))
    rtlib = importlib.import_module("rtlib")
    rtlib.Crate.stamp = functools.cache(rtlib.Crate.stamp)
    return {it.name: it for it in rtlib.crates_below(os.getcwd()) if it.makes_rlib()}


@contextlib.contextmanager
def held(crate):
    """Keeps the toolchain's command out of this crate's folder, as it does itself."""
    folder = os.open(crate.folder, os.O_RDONLY)
    fcntl.flock(folder, fcntl.LOCK_EX)
    yield
    os.close(folder)


def take(folder):
    """Takes the libraries of this folder whose crates are still what was noted."""
    noted, since, taken = json.loads(NOTED.read_text()), NOTED.stat().st_mtime, set()
    for crate in read_all().values():
        to = pathlib.Path(crate.folder, "out/rlib")
        made = pathlib.Path(folder).resolve() / os.path.relpath(to)
        # (this file has a sum of the others)
        new, old = (it / f"{crate.name}.rlib/format" for it in (made, to))
        with held(crate):
            is_due = new.is_file() and made.stat().st_mtime >= since
            if is_due and crate.stamp() == noted.get(crate.name):
                if not old.is_file() or new.read_bytes() != old.read_bytes():
                    taken.add(crate)
                    shutil.rmtree(to, ignore_errors=True)
                    shutil.copytree(made, to)
                (to / "stamp").write_text(crate.stamp())
            elif taken & {*crate.below()}:
                (to / "stamp").unlink(missing_ok=True)


if __name__ == "__main__":
    match sys.argv[1:]:
        case ["note"]:
            NOTED.parent.mkdir(exist_ok=True)
            NOTED.write_text(json.dumps({name: it.stamp() for name, it in read_all().items()}))
        case ["take", folder]:
            take(folder)
        case _:
            sys.exit(__doc__)
