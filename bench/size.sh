#!/bin/sh
# Prints how large the repository is: for each crate its lines of code, definitions and proofs, the lines of code and definitions past 120
# columns, the longest of them, and its must-fail edits; and for some facts how many files name them, of the product, its tests and its docs.
# It proves nothing and takes a second.
command -v python3 >/dev/null 2>&1 || { echo "size: python3 isn't installed" >&2; exit 0; }
cd "$(dirname "$0")/.." || exit 1
exec python3 - <<'PYTHON'
import pathlib
import re

# What is named: the words that tell it, and the crates in which they mean it (none: all).
FACTS = (
    ("the variable validity", r"\bvalidity\b|\bVALIDITY\b|\bValidity\b", r"sendsms_|http_text"),
    ("the answer NotRoutable", r"\bNotRoutable\b", ""),
    ("the setting keepalive", r"\bkeepalive\b", r"config_"),
    ("the entry CallDropped", r"\bCallDropped\b", ""),
    ("the command enquire_link", r"\b(enquire_link|ENQUIRE_LINK)(_resp|_RESP)?\b", ""),
    ("the escape %A", r"%A\b|\bb'A'|\bAnswered? =>|\bthe_answer\b", r"url_escapes"),
    ("the status of KindNotBuilt", r"\bKindNotBuilt\b", ""),
)
NO_PRODUCT = re.compile(r"_(runs|cases|bench|lines|list)$|^fake_centre$|^line_cases$")


def lines_of(folder, ending):
    return [line for path in sorted(folder.rglob(f"*{ending}")) for line in path.read_text().splitlines()]


def is_import(line):
    return re.match(r"\s*(ghost |pub )?use ", line)


crates = sorted(path for path in pathlib.Path("crates").iterdir() if (path / "src").is_dir())
print(f"{'crate':18}{'src':>7}{'specs':>7}{'proofs':>8}{'ratio':>7}{'>120':>6}{'longest':>9}{'edits':>7}")
sums = {True: [0] * 5, False: [0] * 5}
for crate in crates:
    src, specs, proofs = lines_of(crate / "src", ".rt"), lines_of(crate / "specs", ".antt"), lines_of(crate / "proofs", ".antt")
    said = [len(line) for line in src + specs if not is_import(line)]
    wide = sum(1 for columns in said if columns > 120)
    edits = len(list((crate / "must-fail").glob("*.edit")))
    row = (len(src), len(specs), len(proofs), wide, edits)
    of_product = not NO_PRODUCT.search(crate.name)
    sums[of_product] = [a + b for a, b in zip(sums[of_product], row)]
    print(f"{crate.name:18}{row[0]:7}{row[1]:7}{row[2]:8}{row[2] / max(row[0], 1):7.2f}{wide:6}{max(said, default=0):9}{edits:7}")
for name, of_product in (("product", True), ("tests and benches", False)):
    row = sums[of_product]
    print(f"{name:18}{row[0]:7}{row[1]:7}{row[2]:8}{row[2] / max(row[0], 1):7.2f}{row[3]:6}{'':9}{row[4]:7}")

print(f"\n{'fact':30}{'product':>9}{'its src':>9}{'tests':>7}{'docs':>6}")
for name, words, where in FACTS:
    found = {"product": set(), "src": set(), "tests": set(), "docs": set()}
    for crate in crates:
        for part in ("src", "specs", "proofs"):
            for path in (crate / part).rglob("*"):
                if path.suffix not in (".rt", ".antt") or not re.search(words, path.read_text()):
                    continue
                if NO_PRODUCT.search(crate.name):
                    found["tests"].add(path)
                elif re.search(where, crate.name):
                    found["product"].add(path)
                    if part == "src":
                        found["src"].add(path)
    for path in [*pathlib.Path("docs").glob("*"), pathlib.Path("README.md")]:
        if path.is_file() and re.search(words, path.read_text()):
            found["docs"].add(path)
    print(f"{name:30}" + "".join(f"{len(found[kind]):{width}}" for kind, width in (("product", 9), ("src", 9), ("tests", 7), ("docs", 6))))
PYTHON
