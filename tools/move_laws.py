#!/usr/bin/env python3
"""Moves modules of theorems from specs/ to proofs/, statements unchanged, and turns the paths that cite them.

usage: tools/move_laws.py ROOT

The prover does not read a crate whose specs/ do not check. A must-fail edit of a definition is refused only if what rests on that
definition stands in proofs/. A second run changes nothing.
"""
import os
import re
import sys

MOVED = {
    "octets": "TransducerLaws",
    "measure": "TargetLaws",
    "galley_items": "HereLaws",
    "extents": "FontMarksLaws ExtentsLaws FieldsLaws",
    "dvi": "WriterLaws PageLaws FileLaws SheetLaws EditionLaws",
    "dvi2_reading": "BeginningLaws BytesLaws CharacterPath CommandLaws LiveLaws MayLaws PageFontLaws PageLaws PageMoveLaws Path PathLaws"
    " PieceLaws ReadLaws ReadingLaws StableLaws StandingLaws StateLaws StepLaws WayLaws",
    "punch_codes": "CodesLaws ReadyLaws SettingLaws",
    "punch": "PunchLaws",
    "report": "AmountLaws HeightLaws SumsLaws",
    "xgp": "FileLaws PagedLaws PlacedLaws RunLaws SheetLaws",
    "dvi_brackets": "Agreement BracketsLaws Clean Inner RunAgreement TreeLaws",
    "dvi_galley": "BackLaws ExistsLaws MarkLaws ResultLaws TargetLaws",
    "exchange": "AlikeLaws ExchangeLaws SettingLaws SwapLaws",
}


def read(path):
    with open(path, encoding="utf-8") as f:
        return f.read()


def write(path, text):
    with open(path, "w", encoding="utf-8") as f:
        f.write(text)


def move(crate, module):
    old = os.path.join(crate, "specs", module + ".antt")
    if not os.path.exists(old):
        return
    os.makedirs(os.path.join(crate, "proofs"), exist_ok=True)
    new = os.path.join(crate, "proofs", module + ".antt")
    if os.path.exists(new):
        sys.exit(f"{new} is there already")
    os.rename(old, new)
    specs = os.path.join(crate, "specs", "Lib.antt")
    write(specs, "".join(l for l in read(specs).splitlines(keepends=True) if l.split() != ["pub", "mod", module]))
    proofs = os.path.join(crate, "proofs", "Lib.antt")
    lines = read(proofs).splitlines() if os.path.exists(proofs) else []
    write(proofs, "\n".join(lines + ["pub mod " + module]) + "\n")


def main():
    root = sys.argv[1]
    for crate, modules in MOVED.items():
        for module in modules.split():
            move(os.path.join(root, "crates", crate), module)
    paths = [(rf"\bRattle\.{c}\.specs\.({'|'.join(m.split())})(?![\w'])", rf"Rattle.{c}.proofs.\1") for c, m in MOVED.items()]
    for folder, dirs, files in os.walk(os.path.join(root, "crates")):
        dirs[:] = [d for d in dirs if d != "out"]
        for name in files:
            if not name.endswith((".rt", ".antt", ".edit")):
                continue
            path = os.path.join(folder, name)
            text = new = read(path)
            for old, by in paths:
                new = re.sub(old, by, new)
            crate = os.path.relpath(path, os.path.join(root, "crates")).split(os.sep)[0]
            if name.endswith(".edit") and crate in MOVED:
                new = re.sub(rf"(?m)^file: specs/({'|'.join(MOVED[crate].split())})\.antt$", r"file: proofs/\1.antt", new)
            if new != text:
                write(path, new)


if __name__ == "__main__":
    main()
