"""What tools/build makes, for the tests: the program, target/bin/clearance, and the library's archive, target/staticlib/liblovgurshem.a. Each is built anew
where a file of a crate or crates.txt is newer."""
import pathlib
import shutil
import subprocess
import sys

ROOT = pathlib.Path(__file__).resolve().parent.parent
PROGRAM = ROOT / "target/bin/clearance"
ARCHIVE = ROOT / "target/staticlib/liblovgurshem.a"


def sources():
    """crates.txt and the files of the crates, without what rt keeps in their out/."""
    yield ROOT / "crates.txt"
    for part in ROOT.glob("crates/*/*"):
        if part.name != "out":
            yield from (p for p in [part, *part.glob("**/*")] if p.is_file())


def build(test, made, names):
    """The path of what is made; where it isn't up to date, has tools/build prove and build these. Where there is no rt to do so, says so and ends the test."""
    newest = max(p.stat().st_mtime for p in sources())
    if not made.exists() or made.stat().st_mtime <= newest:
        if not shutil.which("rt"):
            sys.exit(print(f"{test}: no rt here, not run"))
        built = subprocess.run([ROOT / "tools/build", *names], stdout=subprocess.PIPE, stderr=subprocess.STDOUT, text=True)
        if built.returncode != 0:
            sys.exit(f"{built.stdout}{test}: {' and '.join(names)} not built")
    return made


def program(test):
    return build(test, PROGRAM, ["clearance"])


def archive(test):
    """The archive's path; the program is built with it."""
    return build(test, ARCHIVE, ["clearance", "lovgurshem"])
