#!/usr/bin/env python3
"""Counts the places of docs/DESIGN-PASS.md in the sources of a checkout: `python3 tools/design_counts.py [FOLDER] [--list]`."""
import glob
import re
import sys

folder = next((word for word in sys.argv[1:] if not word.startswith("-")), ".")
listed = "--list" in sys.argv

sources = {}
for path in sorted(glob.glob(f"{folder}/crates/*/src/*.rt")):
    with open(path, encoding="utf-8") as file:
        sources[path[len(folder) + 1:]] = file.read()

# Each function: its file, its name, its parameters by name, its result, its clauses, and whether C calls it.
HEAD = re.compile(
    r'^(?P<indent> *)(?:pub )?(?P<extern>extern "C" )?fn (?P<name>\w+)(?:<[^(]*>)?\((?P<parameters>.*?)\)'
    r"(?: -> (?P<result>[^{\n]*?))?(?P<clauses>\s*\n[^{]*?(?:requires|ensures).*?^(?P=indent))?\s*\{",
    re.M | re.S,
)
functions = []
for path, text in sources.items():
    for head in HEAD.finditer(text):
        names = re.findall(r"(\w+): ", head["parameters"])
        functions.append((path, head["name"], names, (head["result"] or "").strip(), head["clauses"] or "", bool(head["extern"])))


def matches(pattern):
    """Lines of the sources that a pattern is found in."""
    found = []
    for path, text in sources.items():
        for number, line in enumerate(text.split("\n"), 1):
            if re.search(pattern, line):
                found.append(f"{path}:{number}: {line.strip()}")
    return found


def named(*names):
    return [f"{path}: {name}" for path, name, *_ in functions if name in names]


def passing(*groups):
    """Functions that take all parameters of one of the groups."""
    return [
        f"{path}: {name}({', '.join(parameters)})"
        for path, name, parameters, *_ in functions
        if any(set(group) <= set(parameters) for group in groups)
    ]


def requiring(fact):
    return [f"{path}: {name}" for path, name, _, _, clauses, _ in functions if fact in clauses.split("ensures")[0]]


POINTS = [
    ("1 functions that answer a number, C's", [f"{p}: {n}" for p, n, _, r, _, c in functions if c and r == "u32"]),
    ("1 functions that answer a refusal's number", [
        f"{p}: {n}" for p, n, _, r, _, c in functions if not c and r == "u32" and "/row/" not in p and n not in ("one_where", "last_digit", "number")
    ]),
    ("1 structs with a refusal or a flag beside a value", matches(r"^ +(pub )?(refusal|found): (u32|bool),")),
    ("1 tests of a refusal's number", matches(r"refusal (!=|==) 0\b")),
    ("1 numbers for kinds", matches(r"^(pub )?const (EROSION|DILATION|BACKGROUND|FOREGROUND|NO_CALL|NO_CASE|[A-Z_]+: usize = \d+; // call)")
     + [line for line in matches(r"^pub const [A-Z_]+: (usize|u32) = \d+;") if "/cases/src/asking" in line and "NO_CALL" not in line]),
    ("1 fields that are such numbers", matches(r"^ +pub (kind|edge|call|closing|packed): (u8|usize|bool),")),
    ("2 greater and lesser of two", named("lesser", "lesser_wide", "greater", "larger")),
    ("2 by kind, any above, held", named("by_kind", "number_by_kind", "any_above_one", "any_above", "any_wide_cell", "is_held")),
    ("2 tables of cells", named("centred_row", "turned_row", "flat_row", "cells_of", "turned_cells", "rows_of")),
    ("2 makers of refused structs", named("refused", "read_refused", "header_refused", "no_field") + [x for x in named("write_refused") if "pbm" in x]),
    ("2 pairs of functions", named("lower_from", "lower_to", "answer_sheet", "answer_levels", "open", "close", "opening_levels", "closing_levels",
                                   "start_dilation", "start_cropped", "area_width", "area_height", "any_in_row", "begun_dilation", "begun_cropped")),
    ("2 pairs of functions, C's", named("wt_open", "wt_close", "wt_opening_levels", "wt_closing_levels", "wt_start_dilation", "wt_start_cropped")),
    ("2 types alike", matches(r"^(pub )?struct (WritePbm|WritePgm|Started|Look|ReadPbm|HeaderFound|FieldFound|HeldPart)\b")),
    ("3 loops that count by hand", matches(r"^ +while ")),
    ("4 conversions, copies and equality by hand", named(
        "wide", "narrow", "one_more", "falls", "digit_byte", "is_digit", "is_white", "word_of", "byte_of", "flag_of", "level_of",
        "one_where", "last_digit", "same_levels", "with_rows", "no_record", "other_kind", "one_if_set", "is_side", "white")),
    ("5 frame, sheet's side and element's side apart", passing(("width", "height", "side"), ("columns", "rows", "element_side"))),
    ("5 the area's parts apart", passing(("width", "cells", "beyond"), ("width", "rows", "beyond"))),
    ("5 frame and margin apart", passing(("width", "height", "margin"))),
    ("5 the bounds apart", passing(("low", "high"))),
    ("5 a PGM header's numbers apart", passing(("width", "height", "maximum"), ("done", "due"))),
    ("5 functions that require a sound record", requiring("foreign run ≡ false") + requiring("Ready run")),
    ("6 a buffer with a place or a length beside it", passing(
        ("levels", "from"), ("levels", "at"), ("worked", "at"), ("part", "from"), ("part", "start"), ("out", "at"), ("map", "from"))),
    ("6 parallel tables", matches(r"^const (LEVELS|MORE|ROOM): \[")),
    ("7 ladders on which call to make", matches(r"if (case\.)?call (==|<=) asking::")),
]

for point, found in POINTS:
    print(f"{len(found):4}  {point}")
    if listed:
        for place in found:
            print(f"          {place}")
