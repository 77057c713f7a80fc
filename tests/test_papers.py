"""The papers and the repository agree: each crate stands in docs/ARCHITECTURE.md, each must-fail edit has its two lines and fits its file once,
every name in docs/COVERAGE.md is there, and no paper names a package host."""
import re
import sys

from archive import ROOT, sources

bad = []
crates = [
    line.split(":")[0].split()[0]  # a word behind it says that it is a static library
    for line in (ROOT / "crates.txt").read_text().splitlines()
    if line.strip() and not line.startswith("#")
]
architecture = (ROOT / "docs/ARCHITECTURE.md").read_text()
for name in crates:
    if f"`{name}`" not in architecture:
        bad.append(f"docs/ARCHITECTURE.md does not name the crate {name}")
for folder in sorted((ROOT / "crates").iterdir()):
    if folder.name not in crates:
        bad.append(f"crates.txt does not list {folder.name}")
for edit in sorted(ROOT.glob("crates/*/must-fail/*.edit")):
    file, old, pairs = None, None, 0  # a file: line holds for the pairs after it
    for word, _, rest in (line.partition(":") for line in edit.read_text().splitlines()):
        rest = rest.removeprefix(" ")
        if word == "file":
            file = rest
        elif word == "old":
            old = rest
        elif word == "new" and file and old is not None:
            count = (edit.parent.parent / file).read_text().count(old)
            if count != 1:
                bad.append(f"{edit}: its old line occurs {count} times in {file}")
            if old == rest:
                bad.append(f"{edit}: changes nothing")
            old, pairs = None, pairs + 1
    if not pairs or old is not None:
        bad.append(f"{edit}: wants a file, and an old and a new line")
texts = "\n".join(p.read_text() for p in sources() if p.suffix in {".rt", ".antt"})
words = set(re.findall(r"[^\s(){}<>!&,;.:`]+", texts)) | set(crates) | {p.stem for p in ROOT.glob("crates/*/must-fail/*.edit")}
for name in re.findall(r"`([^`]+)`", (ROOT / "docs/COVERAGE.md").read_text()):
    head, _, rest = name.partition("/")
    if head in crates and rest:
        found = (ROOT / f"crates/{name}.antt").exists() or (ROOT / f"crates/{head}/must-fail/{rest}.edit").exists() or (ROOT / "crates" / name).exists()
    elif "/" in name or name.endswith(".md"):
        found = bool(list(ROOT.glob(name)))
    else:
        found = all(part in words or (ROOT / part).exists() for part in re.split(r"::|\.|\s+", name.strip(".")) if re.fullmatch(r"[\w'-]+", part))
    if not found and name not in {"crates/", "ensures", "x::f"}:
        bad.append(f"docs/COVERAGE.md names {name}, which is nowhere")
for paper in ["README.md", *sorted(str(p.relative_to(ROOT)) for p in ROOT.glob("docs/*.md"))]:
    text = (ROOT / paper).read_text()
    if re.search(r"https?://", text):
        bad.append(f"{paper} names a host")
# halving works in its two slots (document 02, M-102): it makes and takes no array, and is lent parts of the net slice alone
for signature in ("fn halve(upper: &mut [f64], lower: &mut [f64], w: usize)\n", "pub fn halve_slot(s: &mut [f64], k: usize, w: usize)\n"):
    if signature not in (ROOT / "crates/nets/src/lib.rt").read_text():
        bad.append(f"crates/nets/src/lib.rt has no {signature.strip()}")
for name in ("nets", "nodes"):
    if re.search(r"\[[^\]\n]*;[^\]\n]*\]|scratch\(", (ROOT / f"crates/{name}/src/lib.rt").read_text()):
        bad.append(f"crates/{name}/src/lib.rt makes or takes an array")
# the longest answer: its definition, the code's buffers and the header
length = {n: int(v) for n, v in re.findall(r"^(counts_length|region_length|lent_regions) = (\d+)$", texts, re.M)}
longest = length["counts_length"] + length["lent_regions"] * length["region_length"]
for file, form in (("include/lovgurshem.h", "#define LOVGURSHEM_ANSWER %d\n"), ("crates/clearance/src/main.rt", "[0u8; %d]"), ("crates/charts/src/lib.rt", "out.len() < %d "), ("examples/rust/main.rs", "[0u8; %d]")):
    if form % longest not in (ROOT / file).read_text():
        bad.append(f"{file} has not {longest} bytes for the longest answer")
for line in bad:
    print(line)
print(f"papers: {len(crates)} crates, {len(bad)} faults")
sys.exit(1 if bad else 0)
