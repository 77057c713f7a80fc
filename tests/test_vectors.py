"""The stored vectors are what their generators make: the roots in crates/roots_run are the C library's, made anew here."""
import filecmp
import pathlib
import subprocess
import sys
import tempfile

ROOT = pathlib.Path(__file__).resolve().parent.parent
bad = 0
with tempfile.TemporaryDirectory() as folder:
    subprocess.run([sys.executable, ROOT / "tests/root_vectors.py", "4000", folder], check=True)
    for name in ["stdin", "stdout"]:
        if not filecmp.cmp(f"{folder}/{name}", ROOT / "crates/roots_run" / name, shallow=False):
            print(f"crates/roots_run/{name} is not what tests/root_vectors.py makes")
            bad += 1
print(f"vectors: 4000 roots, {bad} faults")
sys.exit(1 if bad else 0)
