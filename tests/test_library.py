"""The examples in C and in Rust, built against the library, print what the program prints for the same lines (examples/track.sheet) and for a chart
(examples/chart.sheet), the header compiles alone in C and in C++, and the library calls nothing from outside but what the header says. The expected texts
are tests/library.txt and tests/chart.txt."""
import pathlib
import shutil
import subprocess
import sys
import tempfile

from archive import ROOT, archive

LIBRARY = archive("library")
SHEETS = {sheet: (ROOT / "tests" / text).read_text() for sheet, text in (("track.sheet", "library.txt"), ("chart.sheet", "chart.txt"))}
SEARCHED = SHEETS["track.sheet"]
HEADER = '#include "lovgurshem.h"\n'
bad = []


def run(name, command, program, sheets, searched=SEARCHED):
    """Builds a program, runs it on the sheets and compares: what it searches step by step, then the sheet's answer."""
    subprocess.run(command, check=True)
    for sheet in sheets:
        out = subprocess.run([program, ROOT / "examples" / sheet], stdout=subprocess.PIPE, text=True)
        if out.returncode != 0 or out.stdout != searched + SHEETS[sheet]:
            bad.append(f"{name}: status {out.returncode}, printed\n{out.stdout}")
    print(f"library: {name} ran")


with tempfile.TemporaryDirectory() as folder:
    top = pathlib.Path(folder)
    if shutil.which("cc"):
        strict = ["-Wall", "-Wextra", "-pedantic", "-Werror", "-I", ROOT / "include"]
        compiled = ["cc", "-O2", "-std=c99", *strict]
        run("examples/c/search.c", [*compiled, "-o", top / "search", ROOT / "examples/c/search.c", LIBRARY], top / "search", ["track.sheet"])
        run("examples/c/chart.c", [*compiled, "-o", top / "chart", ROOT / "examples/c/chart.c", LIBRARY], top / "chart", SHEETS, "")
        for language, compiler in [("c", "cc"), ("c++", "c++")]:
            if shutil.which(compiler):
                subprocess.run([compiler, "-x", language, "-fsyntax-only", *strict, "-"], input=HEADER, text=True, check=True)
    else:
        print("library: no C compiler here, examples/c not run")
    if shutil.which("rustc") and shutil.which("cc"):
        run("examples/rust", ["rustc", "-O", "--edition", "2021", "-L", LIBRARY.parent, "-o", top / "rust", ROOT / "examples/rust/main.rs"], top / "rust", SHEETS)
    else:
        print("library: no rustc with a linker here, examples/rust not run")
if shutil.which("nm"):
    listed = subprocess.run(["nm", "-u", LIBRARY], stdout=subprocess.PIPE, text=True, check=True).stdout
    called = {line.split()[-1] for line in listed.splitlines() if line.split()[:1] == ["U"]}
    if called - {"memcpy", "memset"}:
        bad.append(f"the library calls {', '.join(sorted(called))}, the header says memcpy and memset")
else:
    print("library: no nm here, what the library calls not looked at")
for line in bad:
    print(line)
sys.exit(1 if bad else 0)
