#!/usr/bin/env python3
"""Brings the names of definitions, fields and lemmas to the spelling of today's Rattle, once, after the kit's port.py.

A word is in snake case and a type in camel case: `lay-refusal` becomes `lay_refusal`, and `In-segment` becomes `InSegment`.
A dash stays where it joins two names, as in `length-put`, and in the names that Rattle makes, as in `returns-in_err-check_carry`.
Names of the libraries stay, and so do comments, strings and what runs.

usage: tools/port_names.py FOLDER    (the top of a checkout)
"""
import pathlib
import re
import sys

NAME = re.compile(r"(?<![\w'-])[A-Za-z][\w']*(?:-[\w']+)+(?![\w'-])")
QUIET = {".antt": re.compile(r"--[^\n]*"), ".rt": re.compile(r'//[^\n]*|"(?:\\.|[^"\\\n])*"')}

# Names of the libraries, which this repository only cites.
LIBRARY = set(
    """
    Decides-and Decides-at Decides-below_and Decides-below_or Decides-eqb Decides-like Decides-ltb IfOk-weaker
    add-mod_right add-one add-zero append-nil cond-false cond-true div-add-mod' div-div-eq-div-mul div-eq_of_lt
    drop-append-le drop-drop drop-take dvd_of_mod-eq-zero eq-eqb eqb-true get_or-drop get_or-replicate
    get_or-set_other get_or-set_same get_or-take le-ltb length-append length-drop length-replicate length-set
    length-take lt-leb lt-ltb ltb-false ltb-true mod-add-mod mod-eq_of_lt mod-lt mod-mod mod-mod_of_dvd mod-mul
    mul-le-mul_left mul-le-mul_right mul-one mul-suc mul-zero not-false one-le-pow one-mul pow-suc shr-shr
    slice_eq-Decides suc-mul take-append-add
    """.split()
)

# Names that Rattle makes of the source, in full.
MADE = {
    "field-0": "field-0",
    "if-within": "if-within",
    "step-2": "step-2",
    "invariant-loop-i": "invariant-loop-i",
    "invariant-loop-row": "invariant-loop-row",
    "loop-i-init": "loop-i-init",
    "loop-i-preserved": "loop-i-preserved",
    "returns-else-within": "returns-else-within",
    "returns-then-within": "returns-then-within",
    "returns-then-has-legal-tag": "returns-then-has_legal_tag",
    "returns-then-has-room": "returns-then-has_room",
    "returns-then-not-goes-on": "returns-then-not-goes_on",
    "returns-then-not-goes-on-2": "returns-then-not-goes_on-2",
    # written with a capital by port.py, since a library has the same spelling
    "Laid-in": "laid_in",
}


def renamed(name):
    if name in LIBRARY:
        return name
    if name in MADE:
        return MADE[name]
    made = re.fullmatch(r"(returns-)?in-(err|ok)-(.*)", name)
    if made:
        return f"{made[1] or ''}in_{made[2]}-{made[3].replace('-', '_')}"
    if name[0].isupper():
        return "".join(part[0].upper() + part[1:] for part in name.split("-"))
    if name.startswith("length-"):
        return "length-" + name[len("length-") :].replace("-", "_")
    return name.replace("-", "_")


def turned(text, quiet):
    out, at = [], 0
    for span in quiet.finditer(text):
        out.append(NAME.sub(lambda m: renamed(m[0]), text[at : span.start()]))
        out.append(span[0])
        at = span.end()
    out.append(NAME.sub(lambda m: renamed(m[0]), text[at:]))
    return "".join(out)


def main():
    top = pathlib.Path(sys.argv[1])
    for path in sorted((top / "crates").rglob("*")):
        if path.suffix in QUIET and "out" not in path.parts:
            before = path.read_text()
            after = turned(before, QUIET[path.suffix])
            if after != before:
                path.write_text(after)


main()
