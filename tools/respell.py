#!/usr/bin/env python3
# Writes this repository's own names as today's Rattle spells them: definitions, lemmas, fields and constructors in snake case.
# Run once at the top of the repository, after the kit's port.py. tools/respelled.tsv has a line for each name: old, new.
import pathlib
import re
import subprocess

TOP = pathlib.Path(__file__).resolve().parent.parent
NAMES = dict(line.split("\t") for line in (TOP / "tools/respelled.tsv").read_text().splitlines())
NAME = re.compile(r"(?<![\w'\-₀-₉?])[A-Za-zΑ-ωκ_][\w'\-₀-₉?]*")
# the kit makes a module specs.contracts in each crate
MOVED = ("crates/moves/specs/Contracts.antt", "crates/moves/specs/MoveContracts.antt")


def respelled(text):
    text = NAME.sub(lambda name: NAMES.get(name.group(0), name.group(0)), text)
    return text.replace("Rattle.moves.specs.Contracts", "Rattle.moves.specs.MoveContracts")


def in_backticks(text):
    return re.sub(r"`[^`\n]+`", lambda quoted: respelled(quoted.group(0)), text)


def turn(pattern, how):
    for path in sorted(TOP.glob(pattern)):
        old = path.read_text()
        new = how(old)
        if new != old:
            path.write_text(new)


if __name__ == "__main__":
    if (TOP / MOVED[0]).exists():
        subprocess.run(["git", "mv", *MOVED], cwd=TOP, check=True)
        declared = TOP / "crates/moves/specs/Lib.antt"
        declared.write_text(declared.read_text().replace("pub mod Contracts\n", "pub mod MoveContracts\n"))
    for pattern in ("crates/*/specs/*.antt", "crates/*/proofs/**/*.antt", "crates/*/src/**/*.rt", "crates/*/must-fail/*.edit", "tests/wrong-answers/**/*.edit"):
        turn(pattern, respelled)
    for pattern in ("README.md", "docs/*.md", "docs/landings/*.md"):
        turn(pattern, in_backticks)
