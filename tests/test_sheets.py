"""The program answers the stored sheets as the Rust did, also one that comes in pieces, and says on standard error when its answer could not be written whole."""
import pathlib
import subprocess
import sys
import tempfile
import time

from archive import ROOT, program

PROGRAM = program("sheets")
FULL = pathlib.Path("/dev/full")
if FULL.exists():
    with FULL.open("wb") as full, (ROOT / "examples/example.sheet").open("rb") as sheet:
        told = subprocess.run([PROGRAM], stdin=sheet, stdout=full, stderr=subprocess.PIPE).stderr
    if told != b"clearance: the answer could not be written whole\n":
        sys.exit(f"sheets: of an answer that could not be written the program says {told!r}")
EXAMPLE = (ROOT / "examples/example.sheet").read_bytes()
slow = subprocess.Popen([PROGRAM], stdin=subprocess.PIPE, stdout=subprocess.PIPE)
for part in (EXAMPLE[:7], EXAMPLE[7:100], EXAMPLE[100:]):  # a sheet that comes in pieces
    slow.stdin.write(part)
    slow.stdin.flush()
    time.sleep(0.05)
if slow.communicate()[0] != (ROOT / "crates/clearance/stdout").read_bytes():
    sys.exit("sheets: the example's answer differs when it comes in pieces")
for answers in ("answers", "answers100", "answers101", "answers103", "answers104", "answers105", "answers106"):
    with tempfile.TemporaryDirectory() as folder:
        done = subprocess.run([sys.executable, "-B", ROOT / "tests/compare.py", "--save", folder, "--replay", ROOT / "tests" / answers, PROGRAM])
    if done.returncode != 0:
        sys.exit(done.returncode)
