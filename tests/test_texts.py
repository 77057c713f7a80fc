"""The stored sheets are text: each text is the one of its sheet's bytes, and the bytes of drawn, random and damaged sheets come back from their text. The example
sheets are those of tests/sheets.py."""
import pathlib
import sys

import sheet_text
import sheets

ROOT = pathlib.Path(__file__).resolve().parent.parent
bad, count = [], 0
for path in sorted(ROOT.glob("tests/answers*/sheets.txt")):
    listed = sheet_text.file_sheets(path)
    count += len(listed)
    if sheet_text.file_text(listed) != path.read_text():
        bad.append(f"{path} is not the text of its sheets")
for name, data in [*sheets.drawn_up_to(106), *sheets.random_sheets(1, 3000, 106)]:
    count += 1
    if sheet_text.sheet_from(sheet_text.text_of(data)) != data:
        bad.append(f"{name}: other bytes come back from its text")
for name, make in sheets.EXAMPLES + sheets.CLOSED_EXAMPLES + sheets.CHART_EXAMPLES:
    if (ROOT / f"examples/{name}.sheet").read_bytes() != make():
        bad.append(f"examples/{name}.sheet is not what tests/sheets.py makes")
if (ROOT / "crates/clearance/stdin").read_bytes() != sheets.example():
    bad.append("crates/clearance/stdin is not the example")
for line in bad:
    print(line)
print(f"texts: {count} sheets, {len(bad)} faults")
sys.exit(1 if bad else 0)
