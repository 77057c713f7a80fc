"""The model in C answers the stored sheets, those with closed lines, with stretch marks, for each test that clears, with data, the charts and those for two
depths too, as the Rust did; and, told to read and print as before M-103, those of before M-104 without a datum and without the three counts."""
import pathlib
import shutil
import subprocess
import sys
import tempfile

ROOT = pathlib.Path(__file__).resolve().parent.parent
compiler = shutil.which("cc") or shutil.which("gcc") or shutil.which("clang")
if compiler is None:
    print("model: no C compiler at hand, not run")
    sys.exit(0)
bad = 0
with tempfile.TemporaryDirectory() as folder:
    program = f"{folder}/clearance"
    subprocess.run([compiler, "-O2", "-std=c99", "-ffp-contract=off", "-o", program, ROOT / "tests/model/clearance.c", "-lm"], check=True)
    older = pathlib.Path(folder) / "older"
    older.write_text(f'#!/bin/sh\nexec "{program}" --level 101 "$@"\n')
    older.chmod(0o755)
    for answers in ["answers", "answers100", "answers101", "answers103", "answers104", "answers105", "answers106"]:
        for level, run in [("106", program), ("101", older)][:1 if answers >= "answers104" else 2]:
            command = [sys.executable, "-B", ROOT / "tests/compare.py", "--level", level, "--save", folder, "--replay", ROOT / "tests" / answers, run]
            bad |= subprocess.run(command).returncode
sys.exit(bad)
