"""Random lists of calls on the compiled library give what the model of document 01 gives (tests/calls/calls.c)."""
import pathlib
import shutil
import subprocess
import sys
import tempfile

from archive import ROOT, archive

if not shutil.which("cc"):
    sys.exit(print("calls: no C compiler here, not run"))
LIBRARY = archive("calls")
with tempfile.TemporaryDirectory() as folder:
    program = pathlib.Path(folder) / "calls"
    subprocess.run(["cc", "-O2", "-std=c99", "-ffp-contract=off", "-Wno-unused-function", "-I", ROOT / "include", "-o", program, ROOT / "tests/calls/calls.c", LIBRARY, "-lm"], check=True)
    sys.exit(subprocess.run([program, "1", "300"]).returncode)
