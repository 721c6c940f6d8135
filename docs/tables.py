#!/usr/bin/env python3
"""Writes the tables of docs/ARCHITECTURE.md anew, behind its heading "Crate by crate", from the files themselves: of each
source file its first line, the definitions of its crate that its contracts cite, and the lemmas of its crate that its proofs
cite. Run it at the top of the repository; the gate does not need it."""
import glob
import os
import re

PAGE = "docs/ARCHITECTURE.md"
HEADING = "## Crate by crate"
INTRO = """
Definitions stand in a crate's `specs/`, lemmas in its `proofs/`; most functions need no lemma. `docs/tables.py` makes these
tables of the first lines of the files, and of what these cite.
"""


def text_of(path):
    with open(path, encoding="utf-8") as file:
        return file.read()


def first_sentence(text):
    """Returns the comment at the head of a file, without its last full stop."""
    lines = []
    for line in text.splitlines():
        if not line.startswith("//!"):
            break
        lines.append(line[3:].strip())
    return " ".join(lines).rstrip(".")


def modules(crate, folder, texts):
    """Returns the modules of a folder of the crate that the texts cite, in the order of their names."""
    there = {os.path.basename(it)[:-5] for it in glob.glob(f"crates/{crate}/{folder}/*.antt")}
    cited = set()
    for text in texts:
        cited |= set(re.findall(rf"Rattle\.{crate}\.{folder}\.([A-Z]\w*)", text))
        cited |= set(re.findall(rf"crate::{folder}::([A-Z]\w*)", text))
    return ", ".join(sorted(cited & there))


def rows_of(crate):
    for path in sorted(glob.glob(f"crates/{crate}/src/*.rt")):
        name = os.path.basename(path)[:-3]
        if name in ("lib", "main", "tests"):
            continue
        text = text_of(path)
        proofs = [text_of(it) for it in glob.glob(f"crates/{crate}/proofs/{name}/**/*.antt", recursive=True)]
        definitions = modules(crate, "specs", [text])
        lemmas = modules(crate, "proofs", [text, *proofs])
        yield f"| {name} | {first_sentence(text)} | {definitions} | {lemmas} |"


def others_of(crate, rows):
    """Returns what stands in specs/ and proofs/ and is cited in no row, as a sentence."""
    told = set(re.findall(r"\w+", " ".join(it.split("|")[3] + it.split("|")[4] for it in rows)))
    said = []
    for folder, word in (("specs", "definitions"), ("proofs", "lemmas")):
        names = {os.path.basename(it)[:-5] for it in glob.glob(f"crates/{crate}/{folder}/*.antt")}
        left = sorted(names - told - {"Lib"})
        if left:
            said.append(f"{word} {', '.join(left)}")
    return f"\nBelow these: {'; '.join(said)}.\n" if said else ""


def tables():
    for line in text_of("crates.txt").splitlines():
        crate = line.split(":")[0].split()[0] if ":" in line else ""
        rows = list(rows_of(crate)) if crate and not crate.startswith("rows") else []
        if rows:
            head = "| Source file | What stands there | Definitions | Lemmas |\n|---|---|---|---|\n"
            yield f"\n**{crate}**\n\n{head}" + "\n".join(rows) + "\n" + others_of(crate, rows)


def main():
    page = text_of(PAGE)
    front = page[: page.index(HEADING)]
    with open(PAGE, "w", encoding="utf-8") as file:
        file.write(front + HEADING + "\n" + INTRO + "".join(tables()))


main()
