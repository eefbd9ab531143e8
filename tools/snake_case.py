#!/usr/bin/env python3
"""Spells the repository's own words of specs/ and proofs/ in snake case: `row-sum` becomes `row_sum`.

    python3 tools/snake_case.py

Run at the top of a checkout. A word is the repository's own if an .antt file below crates/ declares it. Names of goals, and words that
come from libraries, keep their dashes; so do remarks.
"""
import pathlib, re, sys

WORD = r"[^\W\d][\w']*(?:-[\w']+)+"
DECLARED = re.compile(r"^\s*(?:(?:abbrev|unfoldable|pattern|mutual|pub)\s+)*(" + WORD + r")\s+:\s+(\S+)")
TOKEN = re.compile(r"(?<![\w'◌-])" + WORD + r"(?![\w'◌-])")
IMPORT = re.compile(r"use (?:Rattle\.std|borrow|mathlib|native|lib|denote)[\w.]*\.\{([^}]*)\}")
OTHERWISE = {"getD-listed": "get_or_listed"}

def remark(path):
    return "//" if path.suffix == ".rt" else "--"

def parts(path, line):
    """A line's text and its remark."""
    at = line.find(remark(path))
    return (line, "") if at < 0 else (line[:at], line[at:])

def main():
    files = sorted(p for p in pathlib.Path("crates").rglob("*") if p.suffix in (".rt", ".antt") and "out" not in p.parts)
    texts = {p: [parts(p, l) for l in p.read_text().split("\n")] for p in files}
    own, foreign, words = set(), set(), set()
    for p, lines in texts.items():
        for text, _ in lines:
            words.update(re.findall(r"[^\W\d][\w']*", text))
            for names in IMPORT.findall(text):
                foreign.update(n.strip() for n in names.split(","))
            found = DECLARED.match(text)
            if p.suffix == ".antt" and found and not found.group(2).startswith("goal."):
                own.add(found.group(1))
    clash = own & foreign
    if clash:
        sys.exit(f"declared here and in a library: {sorted(clash)}")
    new = {w: OTHERWISE.get(w, w.replace("-", "_")) for w in own}
    print(f"{len(new)} words; also spelt so elsewhere: {sorted(w for w in new.values() if w in words)}")
    for p, lines in texts.items():
        text = "\n".join(TOKEN.sub(lambda m: new.get(m.group(0), m.group(0)), t) + r for t, r in lines)
        if text != p.read_text():
            p.write_text(text)

main()
