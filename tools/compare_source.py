#!/usr/bin/env python3
"""A second reading of the guidance, to be set against data/.

    python3 tools/compare_source.py GUIDANCE [EXHIBITS]

GUIDANCE is the text of EPA 550-B-99-009 (source document 001); every cell of data/table01.tsv to table12.tsv and of
table14.tsv to table25.tsv is compared with it. Table 13 stands in no file of data/: it was made by Equation C-1, so
data/c1.tsv has to list its substances and give its distances. EXHIBITS is the folder with b1.tsv to b4.tsv and
c1.tsv; data/'s files of the same names are compared with those. Exits 1 on any disagreement.

It shares no code with generate.py or with what first made data/: each table is cut out of the whole text by its
caption and its cells are found by a pattern of what a row of that table looks like. Whatever stands in tab-separated
lines beside the rows found must be a known heading, and counts and sums must agree, so no row can go unseen.
"""

import csv
import re
import sys
from decimal import Decimal
from fractions import Fraction
from pathlib import Path

DATA = Path(__file__).resolve().parent.parent / "data"

NUMBER = r"\d[\d,]*(?:\.\d+)?"
DENSE_CELL = rf"(?:#|\*|<0\.1|>25|{NUMBER})"
CHEMICAL_CELL = rf"(?:\*\*?|<0\.1\*|{NUMBER}|)"

ROW = {
    "neutral": re.compile(rf"^({NUMBER} - {NUMBER}|>{NUMBER})\t({NUMBER}|>25\*)$", re.M),
    "dense": re.compile(rf"^({NUMBER})((?:\t{DENSE_CELL}){{16}})$", re.M),
    "chemical": re.compile(rf"^({NUMBER})\t({CHEMICAL_CELL})\t({CHEMICAL_CELL})$", re.M),
    "flammable": re.compile(rf"^(\d+-\d\d-\d)\t([^\t\n]+)((?:\t{NUMBER}){{11}})$", re.M),
}

# The heading lines of a table, as patterns; a group holds what the header line of data/ repeats.
HEADING = {
    "neutral": [r"(?:<b>)?Release Rate/Endpoint [^\t]*\t(?:<b>)?Distance to Endpoint [^\t]*"],
    "dense": [r"Release Rate .*\tToxic Endpoint .*", rf"\t({NUMBER}(?:\t{NUMBER}){{15}})", r"\tDistance \(Miles\)\t+"],
    "chemical": [r"Release Rate .*\tDistance to Endpoint \(miles\)\t", r"\tRural\tUrban"],
    "flammable": [rf"Quantity in Cloud \(pounds\)\t\t({NUMBER}(?:\t{NUMBER}){{10}})", r"CAS No\.\tChemical Name\tDistance .*"],
}

HEADER_START = {"neutral": ["range", "distance"], "dense": ["rate"], "chemical": ["rate", "rural", "urban"],
                "flammable": ["cas", "name"]}

# How many rows each table has: a row that both readings lost would show here.
ROWS = {1: 49, 2: 49, 3: 49, 4: 49, 5: 27, 6: 27, 7: 27, 8: 27, 9: 50, 10: 50, 11: 44, 12: 44,
        14: 49, 15: 49, 16: 49, 17: 49, 18: 27, 19: 27, 20: 27, 21: 27, 22: 42, 23: 42, 24: 44, 25: 44}

# The distances of Table 13, by CAS number and quantity, that are not what Equation C-1 gives rounded to the printed digits. The
# equation gives 0.646, 0.147, 0.252 and 0.65001 miles.
BORDERLINE = [("74-85-1", "500,000", "0.7"), ("75-08-1", "10,000", "0.2"), ("75-08-1", "50,000", "0.2"),
              ("1333-74-0", "200,000", "0.6")]

# The lines that say what is printed below a rate: "<10" above the row of 10, so they are no rows and data/ leaves
# them out. Left out means looked for: each has to be there once, with these cells, and no other table has one.
NO_ROW = {22: ["<10\t<0.1*\t<0.1*"], 23: ["<8\t<0.1*\t<0.1*"]}


def kind_of(table):
    """Each of Tables 14 to 25 has the form of the table thirteen below it."""
    form = table if table <= 13 else table - 13
    return "neutral" if form <= 4 else "dense" if form <= 8 else "chemical" if form <= 12 else "flammable"


def text_of(table, guidance):
    """What stands between a table's caption and the next caption or chapter."""
    found = re.findall(rf"^\*\*Reference Table {table}\*\*[ ]*$(.*?)(?=^\*\*Reference Table {table + 1}\*\*|^## )",
                       guidance, re.M | re.S)
    if len(found) != 1:
        sys.exit(f"table {table}: {len(found)} captions found in the guidance")
    return found[0]


def printed(table, guidance, faults):
    """The header and the rows of a table as the guidance prints them."""
    kind, text = kind_of(table), text_of(table, guidance)
    rows = []
    for match in ROW[kind].finditer(text):
        rows.append([cell for group in match.groups() for cell in (group[1:].split("\t") if group[:1] == "\t" else [group])])
    header = list(HEADER_START[kind])
    repeated = set()
    for line in ROW[kind].sub("", text).splitlines():
        if "\t" not in line or line in NO_ROW.get(table, []):
            continue
        matches = [match for match in (re.fullmatch(pattern, line) for pattern in HEADING[kind]) if match]
        if not matches:
            faults.append(f"table {table}: the guidance has a line of no known kind: {line!r}")
        repeated.update(match.group(1) for match in matches if match.groups())
    # a table that goes on over several pages repeats its heading, which has to be the same each time
    if len(repeated) > 1:
        faults.append(f"table {table}: its headings differ")
    for columns in repeated:
        header += columns.split("\t")
    return [header] + rows


def held(name, folder=DATA):
    """The header and the rows of a tab-separated file, without the comment lines on top."""
    with open(folder / name, encoding="utf-8", newline="") as file:
        lines = file.read().splitlines()
    while lines[0].startswith("# "):
        del lines[0]
    return list(csv.reader(lines, delimiter="\t", quoting=csv.QUOTE_NONE))


def compare(name, ours, theirs, faults):
    """Counts the cells compared; each disagreement becomes a fault."""
    if len(ours) != len(theirs):
        faults.append(f"{name}: {len(ours)} lines in data/, {len(theirs)} in the source")
    count = 0
    for place, (left, right) in enumerate(zip(ours, theirs)):
        if len(left) != len(right):
            faults.append(f"{name}, row {place}: {len(left)} cells in data/, {len(right)} in the source")
        for column, (a, b) in enumerate(zip(left, right)):
            count += 1
            if a != b:
                faults.append(f"{name}, row {place}, column {column}: {a!r} in data/, {b!r} in the source")
    return count


def total(text):
    """The sum of every figure in a text, whatever cell it stands in."""
    return sum(Decimal(figure.replace(",", "")) for figure in re.findall(NUMBER, text))


def compare_sum(table, guidance, faults):
    """Sums over the raw lines, with no notion of a row: a cell that both readings moved or dropped would show.

    Tab-separated lines only, and of those the ones that start with a figure, ">" or a row's CAS number."""
    lines = [line for line in text_of(table, guidance).splitlines() if re.match(r"[>\d][^\t]*\t", line)]
    source = total("\n".join(lines))
    ours = total("\n".join("\t".join(row) for row in held(f"table{table:02d}.tsv")[1:]))
    if source != ours:
        faults.append(f"table {table}: the figures of data/ sum to {ours}, those of the guidance to {source}")


def compare_no_rows(table, guidance, faults):
    """What a table prints below its first row: the lines of NO_ROW, each once, and the bound is the first row's rate."""
    found = re.findall(r"^<\d.*$", text_of(table, guidance), re.M)
    expected = NO_ROW.get(table, [])
    if found != expected:
        faults.append(f"table {table}: below its first row the guidance prints {found}, not {expected}")
    if any(guidance.splitlines().count(line) != 1 for line in expected):
        faults.append(f"table {table}: the guidance has {expected} elsewhere too")
    first = held(f"table{table:02d}.tsv")[1][0]
    if any(line.split("\t")[0] != f"<{first}" for line in expected):
        faults.append(f"table {table}: what is printed below {first} names another rate")


def compare_table(table, guidance, faults):
    name = f"table{table:02d}.tsv"
    ours, theirs = held(name), printed(table, guidance, faults)
    compare_no_rows(table, guidance, faults)
    if len(theirs) - 1 != ROWS[table]:
        faults.append(f"table {table}: {len(theirs) - 1} rows found in the guidance, not {ROWS[table]}")
    compare_sum(table, guidance, faults)
    # the names of our own columns are no cells of the guidance
    names = len(HEADER_START[kind_of(table)])
    count = compare(name, ours, theirs, faults) - names
    print(f"{name}: {len(ours) - 1} rows, {count} cells")
    return count


def rounds_to(printed_miles, pounds, heat):
    """Whether Equation C-1's distance rounds to the printed one: hundredths are printed below a tenth of a mile, else tenths."""
    miles = Fraction(printed_miles)
    half = Fraction(1, 200) if miles < Fraction(1, 10) else Fraction(1, 20)
    cube = Fraction(4_913 * pounds * heat, 102_960)
    return (1_609_344 * (miles - half) / 1_000) ** 3 <= cube <= (1_609_344 * (miles + half) / 1_000) ** 3


def compare_heats(guidance, faults):
    """Exhibit C-1 by Table 13: the same substances in the same order, and heats that give its distances."""
    (_, _, *quantities), *rows = printed(13, guidance, faults)
    heats = held("c1.tsv")[1:]
    count = compare("c1.tsv by Table 13", [line[:2] for line in heats], [row[:2] for row in rows], faults)
    off = [(row[0], quantity, miles) for row, line in zip(rows, heats) for quantity, miles in zip(quantities, row[2:])
           if not rounds_to(miles, int(quantity.replace(",", "")), int(line[2]))]
    if off != BORDERLINE:
        faults.append(f"c1.tsv by Table 13: the equation does not give {off}, which should be {BORDERLINE}")
    print(f"c1.tsv by Table 13: {len(rows)} substances, {len(rows) * len(quantities)} distances, {len(off)} of them borderline")
    return count


def compare_exhibit(name, folder, faults):
    ours = held(name)
    count = compare(name, ours, held(name, folder), faults)
    print(f"{name}: {len(ours) - 1} rows, {count} cells")
    return count


def main(arguments):
    if len(arguments) not in (1, 2):
        sys.exit("usage: python3 tools/compare_source.py GUIDANCE [EXHIBITS]")
    guidance = Path(arguments[0]).read_text(encoding="utf-8")
    faults = []
    cells = sum(compare_table(table, guidance, faults) for table in ROWS)
    cells += compare_heats(guidance, faults)
    print(f"{cells} cells compared with the guidance")
    if len(arguments) == 2:
        exhibits = sum(compare_exhibit(name, Path(arguments[1]), faults) for name in ("b1.tsv", "b2.tsv", "b3.tsv", "b4.tsv", "c1.tsv"))
        print(f"{exhibits} cells compared with the exhibits")
    for fault in faults:
        print(f"disagreement: {fault}", file=sys.stderr)
    print(f"{len(faults)} disagreements")
    sys.exit(1 if faults else 0)


if __name__ == "__main__":
    main(sys.argv[1:])
