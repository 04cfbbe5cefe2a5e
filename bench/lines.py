#!/usr/bin/env python3
"""lines.py: for each crate of crates.txt the functions, and the lines of code, definitions, laws and answers, as rows of a table. Blank
lines, comments, `use` and `mod` lines count nowhere; contracts (requires, ensures) are counted by themselves. Definitions are the
abbrev, unfoldable, record and data items of specs/ and proofs/, answers the files proofs/FUNCTION/Invariants.antt and
Answers.antt, laws all else. The last column is the seconds of the crate's check in the last run of the gate, from target/gate (none where it
did not run here, or said none)."""
import pathlib
import re


def code(files):
    functions = lines = contracts = 0
    for f in files:
        for line in f.read_text().split("\n"):
            text = line.strip()
            if not text or text.startswith(("//", "#![", "use ", "ghost use ", "mod ", "pub mod ")):
                continue
            if text.startswith(("requires", "ensures", "×", "(cond", "(winning", "result.ref_ptr")):
                contracts += 1
                continue
            functions += bool(re.match(r"(pub )?(extern \"C\" )?fn ", text))
            lines += 1
    return functions, lines, contracts


def theory(files):
    definitions = laws = 0
    for f in files:
        defining, indent = False, 0
        for line in f.read_text().split("\n"):
            text = line.strip()
            if not text or text.startswith(("--", "use ", "mod ", "pub mod ")):
                continue
            at = len(line) - len(line.lstrip())
            if re.match(r"(pub )?(record|data) [^{]", text):
                defining, indent = True, at
            elif not (defining and at > indent) and re.match(r"(abbrev |unfoldable )?(pub )?\S.* :( |$)", text) and not text.startswith(("let ", "(", "λ")):
                defining, indent = bool(re.match(r"(abbrev|unfoldable) ", text)), at
            if defining:
                definitions += 1
            else:
                laws += 1
    return definitions, laws


def plain_lines(files):
    kept = 0
    for f in files:
        for line in f.read_text().split("\n"):
            text = line.strip()
            kept += bool(text) and not text.startswith(("--", "use "))
    return kept


def seconds(name):
    log = pathlib.Path("target/gate/proofs.log")
    found = re.search(rf"^rt: {name} proved \((\d+) s\)", log.read_text(), re.M) if log.exists() else None
    return found.group(1) if found else ""


names = [line.split(":")[0].split()[0] for line in pathlib.Path("crates.txt").read_text().split("\n") if ":" in line and not line.startswith("#")]
total = [0] * 6
print("| crate | functions | code | contracts | definitions | laws | answers | check, s |")
print("|---|---|---|---|---|---|---|---|")
for name in names:
    crate = pathlib.Path("crates") / name
    row = [*code(sorted(crate.glob("src/**/*.rt")))]
    proofs = sorted(crate.glob("proofs/**/*.antt"))
    answers = [f for f in proofs if f.name in ("Answers.antt", "Invariants.antt")]
    row += theory(sorted(crate.glob("specs/**/*.antt")) + [f for f in proofs if f not in answers])
    row.append(plain_lines(answers))
    total = [a + b for a, b in zip(total, row)]
    print(f"| `{name}` | " + " | ".join(map(str, row)) + f" | {seconds(name)} |")
print("| all | " + " | ".join(map(str, total)) + " | |")
