#!/usr/bin/env python3
"""Turns data/ into the printed lists of the specifications, the tables of the code and their proof files, and the
exact rates of tests/vectors/ into a list that the definitions are held against.

    python3 tools/generate.py           writes every generated file
    python3 tools/generate.py --check   exits 1, naming the file, where one is missing or differs

Nothing of them is taken on trust: whatever is not as expected stops the run with a message. Figures are converted
by integer arithmetic on their text, since a float would not hold 0.0087 exactly.
"""

import os
import re
import sys

ROOT = os.path.dirname(os.path.dirname(os.path.abspath(__file__)))

# Decimals that each unit holds: the figure 0.0087 of an endpoint is 870 hundred-thousandths.
ENDPOINT_DECIMALS = 5
LIQUID_FACTOR_DECIMALS = 6
DENSITY_FACTOR_DECIMALS = 2
TEMPERATURE_FACTOR_DECIMALS = 2
MILE_DECIMALS = 2
RATIO_DECIMALS = 1
PERCENT_DECIMALS = 1

# Limits of the scope paper, in those units; the code's arithmetic relies on them.
LIQUID_FACTOR_LIMIT = 1_000_000
DENSITY_FACTOR_LIMIT = 200
TEMPERATURE_FACTOR_LIMIT = 1_000
PERCENT_LIMIT = 1_000
HEAT_LIMIT = 150_000

# What a mark reads, in hundredths of a mile.
NEAREST = 10
FARTHEST = 2500
DISTANCE_READ = {
    "less": NEAREST,
    "hash": NEAREST,
    "blank": NEAREST,
    "more": FARTHEST,
    "star": FARTHEST,
    "stars": FARTHEST,
}

# The marks that each table prints, by its own footnotes: "*" is a footnote of "<0.1*" in Tables 9, 10 and 22 to 25, and
# stands alone for more than 25 miles in 11, 12 and 18 to 21, so a mark of another table is a fault.
NEUTRAL_MARKS = {">25*": "more"}
DENSE_MARKS = {"#": "hash", "<0.1": "less", ">25": "more", "*": "star"}
AMMONIA_MARKS = {"<0.1*": "less", "**": "stars"}
CHLORINE_MARKS = {"*": "star"}
LIKELY_CHEMICAL_MARKS = {"<0.1*": "less"}

NEUTRAL_TABLES = (1, 2, 3, 4)
DENSE_TABLES = (5, 6, 7, 8)
CHEMICAL_TABLES = (9, 10, 11, 12)

# The tables of likely scenarios, each thirteen above the one that is printed and read like it.
LIKELY_NEUTRAL_TABLES = (14, 15, 16, 17)
LIKELY_DENSE_TABLES = (18, 19, 20, 21)
LIKELY_CHEMICAL_TABLES = (22, 23, 24, 25)

GAS_COUNT = 23
LIQUID_COUNT = 51
SOLUTION_COUNT = 15
FLAMMABLE_COUNT = 63
DENSE_ROW_COUNT = 27
DENSE_COLUMN_COUNT = 16

PLUMES = {"Buoyant": "Neutral", "Dense": "Dense"}


class Fault(Exception):
    """Something in data/ or tests/vectors/ that this program does not expect."""


def expect(holds, where, what):
    if not holds:
        raise Fault(f"{where}: {what}")


# ---- Reading data/ ----


def read_rows(name):
    """The header and the rows of a file of data/, each row with its place for messages."""
    path = os.path.join(ROOT, "data", name)
    expect(os.path.exists(path), f"data/{name}", "the file is missing")
    with open(path, encoding="utf-8", newline="") as file:
        text = file.read()
    expect(text.endswith("\n") and "\r" not in text, f"data/{name}", "lines must end in a line feed")
    lines = list(enumerate(text[:-1].split("\n"), start=1))
    # Only the lines on top are comments: a "#" further down is a mark of Tables 5 to 8.
    while lines and lines[0][1].startswith("# "):
        lines.pop(0)
    expect(lines, f"data/{name}", "no header line")
    header = lines[0][1].split("\t")
    rows = []
    for number, line in lines[1:]:
        cells = line.split("\t")
        where = f"data/{name}, line {number}"
        expect(len(cells) == len(header), where, f"{len(cells)} cells where the header has {len(header)}")
        expect(all(cell == cell.strip() for cell in cells), where, "a space at an end of a cell")
        rows.append((where, cells))
    return header, rows


def read_records(name, columns, count):
    """The rows of a file as dictionaries, where the header and the number of rows are known beforehand."""
    header, rows = read_rows(name)
    expect(header == columns, f"data/{name}", f"the header is not {' '.join(columns)}")
    expect(count is None or len(rows) == count, f"data/{name}", f"{len(rows)} rows, not {count}")
    return [(where, dict(zip(columns, cells))) for where, cells in rows]


def scaled(text, decimals, where):
    """A printed figure as a whole number of its unit: scaled("0.0087", 5) is 870."""
    match = re.fullmatch(r"([0-9]{1,3}(?:,[0-9]{3})*)(?:\.([0-9]+))?", text)
    expect(match, where, f"'{text}' is no figure")
    whole, fraction = match.group(1).replace(",", ""), match.group(2) or ""
    expect(len(fraction) <= decimals, where, f"'{text}' has more than {decimals} decimals")
    return int(whole + fraction.ljust(decimals, "0"))


def factor(text, decimals, limit, where):
    """A figure that is above zero and within its limit."""
    value = scaled(text, decimals, where)
    expect(0 < value <= limit, where, f"'{text}' is zero or above the limit")
    return value


def cas_number(text, where):
    """A CAS number without its hyphens. Its last digit is a check digit, which catches a mistyped one."""
    expect(re.fullmatch(r"[1-9][0-9]{1,6}-[0-9]{2}-[0-9]", text), where, f"'{text}' is no CAS number")
    digits = text.replace("-", "")
    weighted = sum(place * int(digit) for place, digit in enumerate(reversed(digits[:-1]), start=1))
    expect(weighted % 10 == int(digits[-1]), where, f"the check digit of '{text}' is wrong")
    return int(digits)


def expect_rising(numbers, where):
    expect(all(a < b for a, b in zip(numbers, numbers[1:])), where, "the numbers do not rise")


def expect_distinct(records, where):
    numbers = [record["cas"] for record in records]
    expect(len(set(numbers)) == len(numbers), where, "a CAS number stands twice")


def expect_no_blank(cells, where):
    expect(all(cells.values()), where, "a blank cell")


def plume(text, where):
    expect(text in PLUMES, where, f"'{text}' is no plume")
    return PLUMES[text]


# ---- The exhibits ----


def read_substance(cells, factors, table, alternative, where):
    """What B-1, B-2 and B-3 print of a substance; `factors` names the column of each liquid factor that it has, `table` and
    `alternative` those that say neutral or dense in the worst case and in the alternative one."""
    expect_no_blank(cells, where)
    substance = {
        "cas": cas_number(cells["cas"], where),
        "name": cells["name"],
        "endpoint": factor(cells["endpoint"], ENDPOINT_DECIMALS, 2**32 - 1, where),
        "lfa": 0,
        "lfb": 0,
        "df": factor(cells["df"], DENSITY_FACTOR_DECIMALS, DENSITY_FACTOR_LIMIT, where),
        "plume": plume(cells[table], where),
        "alternative": plume(cells[alternative], where),
    }
    for name, column in factors.items():
        substance[name] = factor(cells[column], LIQUID_FACTOR_DECIMALS, LIQUID_FACTOR_LIMIT, where)
    return substance


def read_gases():
    """The lines of Exhibit B-1, which has one column for both cases."""
    columns = ["cas", "name", "molecular_weight", "endpoint", "lfb", "df", "reference_table"]
    return [read_substance(cells, {"lfb": "lfb"}, "reference_table", "reference_table", where)
            for where, cells in read_records("b1.tsv", columns, GAS_COUNT)]


def read_liquids():
    columns = ["cas", "name", "molecular_weight", "vapor_pressure_mmhg", "endpoint", "lfa", "lfb", "df",
               "worst_case_table", "alternative_case_table"]
    return [read_substance(cells, {"lfa": "lfa", "lfb": "lfb"}, "worst_case_table", "alternative_case_table", where)
            for where, cells in read_records("b2.tsv", columns, LIQUID_COUNT)]


def read_solutions():
    """The lines of Exhibit B-3: those of a substance stand together, the highest concentration first."""
    columns = ["cas", "name", "endpoint", "percent", "lfa_1_5", "lfa_3_0", "df", "worst_case_table", "alternative_case_table"]
    solutions = []
    for where, cells in read_records("b3.tsv", columns, SOLUTION_COUNT):
        solution = read_substance(cells, {"lfa": "lfa_1_5"}, "worst_case_table", "alternative_case_table", where)
        solution["percent"] = factor(cells["percent"], PERCENT_DECIMALS, PERCENT_LIMIT, where)
        above = solutions[-1] if solutions else None
        if above and above["cas"] == solution["cas"]:
            expect(above["percent"] > solution["percent"], where, "the concentration is not below the one above it")
        else:
            expect(all(x["cas"] != solution["cas"] for x in solutions), where, "the substance stands in two places")
        solutions.append(solution)
    return solutions


def read_cell(text, where):
    """A cell of Exhibit B-4: a factor in hundredths, "LFB" or "ND"."""
    if text in ("LFB", "ND"):
        return text
    return factor(text, TEMPERATURE_FACTOR_DECIMALS, TEMPERATURE_FACTOR_LIMIT, where)


def read_factors():
    temperatures = ["tcf30", "tcf35", "tcf40", "tcf45", "tcf50"]
    columns = ["cas", "name", "boiling_point_c"] + temperatures
    return [
        {
            "cas": cas_number(cells["cas"], where),
            "name": cells["name"],
            "cells": [read_cell(cells[column], where) for column in temperatures],
        }
        for where, cells in read_records("b4.tsv", columns, LIQUID_COUNT)
    ]


def read_heat(text, where):
    """A heat of combustion. Exhibit C-1 prints whole kilojoules per kilogram, without commas: there is nothing to round up."""
    expect(re.fullmatch(r"[1-9][0-9]*", text), where, f"'{text}' is no whole number")
    expect(int(text) <= HEAT_LIMIT, where, f"'{text}' is above the limit")
    return int(text)


def read_heats():
    """The lines of Exhibit C-1."""
    columns = ["cas", "name", "heat_of_combustion_kj_per_kg"]
    flammables = [
        {
            "cas": cas_number(cells["cas"], where),
            "name": cells["name"],
            "heat": read_heat(cells["heat_of_combustion_kj_per_kg"], where),
        }
        for where, cells in read_records("c1.tsv", columns, FLAMMABLE_COUNT)
    ]
    expect_distinct(flammables, "data/c1.tsv")
    return flammables


def read_exhibits():
    gases, liquids, factors = read_gases(), read_liquids(), read_factors()
    expect_distinct(gases + liquids, "data/b1.tsv and data/b2.tsv")
    expect([x["cas"] for x in factors] == [x["cas"] for x in liquids], "data/b4.tsv",
           "its substances are not those of data/b2.tsv, in their order")
    return gases, liquids, factors


# ---- The tables ----


def read_mark(text, marks, where):
    """A distance as printed: the pair of the mark's name and, for a figure, its hundredths of a mile."""
    if text in marks:
        return (marks[text], None)
    hundredths = scaled(text, MILE_DECIMALS, where)
    expect(0 < hundredths <= FARTHEST, where, f"'{text}' is no distance up to 25 miles")
    return ("miles", hundredths)


def distance_read(mark):
    name, hundredths = mark
    return hundredths if name == "miles" else DISTANCE_READ[name]


def table_file(number):
    return f"table{number:02d}.tsv"


def read_neutral(number):
    """One of Tables 1 to 4 or 14 to 17: closed ranges that join without a gap from 0 on, and one open range above them."""
    rows = read_records(table_file(number), ["range", "distance"], None)
    closed, upto = [], 0
    for where, cells in rows[:-1]:
        bounds = cells["range"].split(" - ")
        expect(len(bounds) == 2, where, f"'{cells['range']}' is no range")
        lower, upper = (scaled(bound, RATIO_DECIMALS, where) for bound in bounds)
        expect(lower == upto and lower < upper, where, "the range does not join the one above")
        closed.append((lower, upper, read_mark(cells["distance"], NEUTRAL_MARKS, where)))
        upto = upper
    where, cells = rows[-1]
    expect(cells["range"].startswith(">"), where, "the last range is not open")
    expect(scaled(cells["range"][1:], RATIO_DECIMALS, where) == upto, where, "the range does not join the one above")
    return {"closed": closed, "above": (upto, read_mark(cells["distance"], NEUTRAL_MARKS, where))}


def read_dense(number):
    """One of Tables 5 to 8 or 18 to 21: rates down, endpoints across."""
    name = table_file(number)
    header, rows = read_rows(name)
    expect(header[0] == "rate", f"data/{name}", "the first column is not rate")
    endpoints = [scaled(cell, ENDPOINT_DECIMALS, f"data/{name}, header") for cell in header[1:]]
    rates = [scaled(cells[0], 0, where) for where, cells in rows]
    expect(len(endpoints) == DENSE_COLUMN_COUNT, f"data/{name}", f"{len(endpoints)} endpoints")
    expect(len(rates) == DENSE_ROW_COUNT, f"data/{name}", f"{len(rates)} rates")
    expect_rising(endpoints, f"data/{name}, header")
    expect_rising(rates, f"data/{name}, rates")
    marks = [[read_mark(cell, DENSE_MARKS, where) for cell in cells[1:]] for where, cells in rows]
    return {"rates": rates, "endpoints": endpoints, "marks": marks}


def read_chemical(number):
    """One of Tables 9 to 12 or 22 to 25: rates down, rural and urban. Only the urban columns of Tables 10 and 22 to 25 have
    blanks."""
    if number in LIKELY_CHEMICAL_TABLES:
        rural_marks = LIKELY_CHEMICAL_MARKS
    else:
        rural_marks = AMMONIA_MARKS if number in (9, 10) else CHLORINE_MARKS
    urban_marks = {**rural_marks, "": "blank"} if number in (10, *LIKELY_CHEMICAL_TABLES) else rural_marks
    lines = [
        (scaled(cells["rate"], 0, where), read_mark(cells["rural"], rural_marks, where),
         read_mark(cells["urban"], urban_marks, where))
        for where, cells in read_records(table_file(number), ["rate", "rural", "urban"], None)
    ]
    expect_rising([rate for rate, _, _ in lines], f"data/{table_file(number)}, rates")
    return lines


# ---- Reading tests/vectors/ ----


def read_rate_lines():
    """The lines of rate.tsv: a card's bytes, numerator and denominator of its exact rate, and those of its slack."""
    name = "tests/vectors/rate.tsv"
    with open(os.path.join(ROOT, name), encoding="utf-8", newline="") as file:
        lines = file.read().splitlines()
    expect(lines, name, "no lines")
    cards = []
    for number, line in enumerate(lines, start=1):
        match = re.fullmatch(r"([0-9a-f]{48})\t([0-9]+) ([1-9][0-9]*)\t([0-9]+) ([1-9][0-9]*)", line)
        expect(match, f"{name}, line {number}", "not a card and two fractions")
        cards.append(match.groups())
    return cards


# ---- What the code reads of a table ----


def entries_in_use(rows):
    """The largest distance in the rows up to this one and the columns from this one on.

    Endpoints rise from left to right, so those are the entries of no greater rate and no lower endpoint."""
    result, above = [], [0] * len(rows[0])
    for row in rows:
        line = [max(entry, earlier) for entry, earlier in zip(row, above)]
        for column in reversed(range(len(line) - 1)):
            line[column] = max(line[column], line[column + 1])
        result.append(line)
        above = line
    return result


def column_in_use(marks):
    """The entries in use of a table with one column."""
    return [line[0] for line in entries_in_use([[distance_read(mark)] for mark in marks])]


def rate_cuts(rates):
    """The largest rate, in thousandths, that reads each row but the last: below the midpoint, as the larger row has it."""
    return [500 * (a + b) - 1 for a, b in zip(rates, rates[1:])]


def endpoint_cuts(endpoints):
    """The largest endpoint that reads each column but the last: the midpoint, as the smaller column has it."""
    return [(a + b) // 2 for a, b in zip(endpoints, endpoints[1:])]


def flat(lists):
    return [entry for entries in lists for entry in entries]


# ---- Writing antt ----

LIST_IMPORT = "use Rattle.std.specs.Prelude.{List, [], ◌∷◌}"
NUMBERS_IMPORT = "use Rattle.std.specs.Prelude.{ℕ, List, [], ◌∷◌}"


def antt_file(sources, purpose, imports, definitions):
    lines = [f"-- Generated by tools/generate.py from {sources}: do not edit.", f"-- {purpose}"]
    lines += imports
    for definition in definitions:
        lines += [""] + definition
    return "\n".join(lines) + "\n"


def antt_definition(comment, name, element, items):
    """A list with one item a line; an item is the pair of a comment above it, or None, and its text."""
    lines = [f"-- {comment}", f"unfoldable pub {name} : List {element}", f"{name} ="]
    joint = ""
    for note, text in items:
        if note:
            lines.append(f"    -- {note}")
        lines.append(f"    {joint}{text}")
        joint = "∷ "
    return lines + ["    ∷ []"]


def antt_list(entries):
    return " ∷ ".join([str(entry) for entry in entries] + ["[]"])


def antt_numbers(comment, name, numbers):
    """A list of numbers, some a line."""
    parts = [" ∷ ".join(map(str, numbers[start:start + 12])) for start in range(0, len(numbers), 12)]
    return antt_definition(comment, name, "ℕ", [(None, part) for part in parts])


def antt_mark(mark):
    name, hundredths = mark
    return f"miles {hundredths}" if name == "miles" else name


def bracketed(text):
    return f"({text})" if " " in text else text


def marks_used(marks):
    """The constructors of marks that a file needs, in the order of their declaration."""
    used = {name for name, _ in marks}
    return [name for name in ("miles", "less", "hash", "more", "star", "stars", "blank") if name in used]


def printed_import(crate, names):
    return f"use Rattle.{crate}.specs.Printed.{{{', '.join(names)}}}"


def forms_import(names):
    """The forms of Tables 1 to 12 and 14 to 25 stand in the crate below the tables, with the rules."""
    return f"use Rattle.rules.specs.Printed.{{{', '.join(names)}}}"


def variants_import(enum, used, variants):
    """The variants of an enum of the exhibits that a file needs, in the order of their declaration."""
    names = [variant for variant in variants if variant in used]
    return f"use Rattle.exhibits.specs.declared.{enum}.TheVariants.{{{', '.join(names)}}}"


def plumes_used(substances):
    return {x[column] for x in substances for column in ("plume", "alternative")}


def printed_b1(gases):
    items = [(x["name"], f"gas {x['cas']} {x['endpoint']} {x['lfb']} {x['df']} {x['plume']}") for x in gases]
    return antt_file(
        "data/b1.tsv", "Exhibit B-1 as printed. Endpoints in hundred-thousandths of mg/L, LFB in millionths, DF in hundredths.",
        [LIST_IMPORT, printed_import("exhibits", ["GasLine", "gas"]),
         variants_import("Plume", plumes_used(gases), ("Neutral", "Dense"))],
        [antt_definition("Exhibit B-1, toxic gases, in the printed order: CAS number, endpoint, LFB, DF, plume",
                         "b1", "GasLine", items)])


def printed_b2(liquids):
    items = [(x["name"], f"liquid {x['cas']} {x['endpoint']} {x['lfa']} {x['lfb']} {x['df']} {x['plume']} {x['alternative']}")
             for x in liquids]
    return antt_file(
        "data/b2.tsv", "Exhibit B-2 as printed. Endpoints in hundred-thousandths of mg/L, LFA and LFB in millionths, DF in hundredths.",
        [LIST_IMPORT, printed_import("exhibits", ["LiquidLine", "liquid"]),
         variants_import("Plume", plumes_used(liquids), ("Neutral", "Dense"))],
        [antt_definition("Exhibit B-2, toxic liquids, in the printed order: CAS number, endpoint, LFA, LFB, DF,\n"
                         "-- worst-case plume, alternative-case plume", "b2", "LiquidLine", items)])


CELL_VARIANTS = {"LFB": "Lfb", "ND": "NoData"}


def antt_cell(cell):
    return CELL_VARIANTS[cell] if cell in CELL_VARIANTS else f"(Factor {cell})"


def printed_b4(factors):
    items = [(x["name"], f"factors {x['cas']} {' '.join(map(antt_cell, x['cells']))}") for x in factors]
    used = {CELL_VARIANTS.get(cell, "Factor") for x in factors for cell in x["cells"]}
    return antt_file(
        "data/b4.tsv", "Exhibit B-4 as printed. Factors in hundredths.",
        [LIST_IMPORT, printed_import("exhibits", ["FactorLine", "factors"]),
         variants_import("Cell", used, ("Factor", "Lfb", "NoData"))],
        [antt_definition("Exhibit B-4, temperature factors, in the printed order: CAS number, then 30, 35, 40, 45 and 50 °C",
                         "b4", "FactorLine", items)])


def printed_b3(solutions):
    items = [(x["name"],
              f"solution {x['cas']} {x['percent']} {x['endpoint']} {x['lfa']} {x['df']} {x['plume']} {x['alternative']}")
             for x in solutions]
    return antt_file(
        "data/b3.tsv",
        "Exhibit B-3 as printed. Concentrations in tenths of a percent, endpoints in hundred-thousandths of mg/L, LFA in\n"
        "-- millionths, DF in hundredths.",
        [LIST_IMPORT, printed_import("exhibits", ["SolutionLine", "solution"]),
         variants_import("Plume", plumes_used(solutions), ("Neutral", "Dense"))],
        [antt_definition("Exhibit B-3, water solutions and oleum, in the printed order: CAS number, concentration, endpoint, LFA at "
                         "1.5 m/s, DF,\n-- worst-case plume, alternative-case plume", "b3", "SolutionLine", items)])


def sources_of(tables):
    """The files of some tables whose numbers follow each other."""
    numbers = list(tables)
    return f"data/{table_file(numbers[0])} to {table_file(numbers[-1])}"


def titles_of(tables):
    numbers = list(tables)
    return f"Reference Tables {numbers[0]} to {numbers[-1]}"


def printed_neutral(tables):
    marks = [mark for table in tables.values() for _, _, mark in table["closed"]]
    marks += [table["above"][1] for table in tables.values()]
    definitions = []
    for number, table in tables.items():
        items = [(None, f"closed {lower} {upper} {bracketed(antt_mark(mark))}") for lower, upper, mark in table["closed"]]
        lower, mark = table["above"]
        items.append((None, f"above {lower} {bracketed(antt_mark(mark))}"))
        definitions.append(antt_definition(f"Table {number}: the range of rate / endpoint, the distance",
                                           f"table{number}", "Range", items))
    return antt_file(
        sources_of(tables),
        f"{titles_of(tables)} as printed. Bounds in tenths of (lbs/min)/(mg/L), distances in hundredths of a mile.",
        [LIST_IMPORT, forms_import(marks_used(marks) + ["Range", "closed", "above"])], definitions)


def printed_dense(tables):
    marks = [mark for table in tables.values() for row in table["marks"] for mark in row]
    definitions = []
    for number, table in tables.items():
        rows = [(None, f"({antt_list(map(antt_mark, row))})") for row in table["marks"]]
        definitions += [
            antt_numbers(f"Table {number}: the rates of its rows", f"rates{number}", table["rates"]),
            antt_numbers(f"Table {number}: the endpoints of its columns", f"endpoints{number}", table["endpoints"]),
            antt_definition(f"Table {number}: the distances, row by row", f"table{number}", "(List Mark)", rows),
        ]
    return antt_file(
        sources_of(tables),
        f"{titles_of(tables)} as printed. Rates in lbs/min, endpoints in hundred-thousandths of mg/L, distances in\n"
        "-- hundredths of a mile.",
        [NUMBERS_IMPORT, forms_import(["Mark"] + marks_used(marks))], definitions)


def printed_chemical(tables):
    marks = [mark for table in tables.values() for _, rural, urban in table for mark in (rural, urban)]
    definitions = []
    for number, table in tables.items():
        items = [(None, f"line {rate} {bracketed(antt_mark(rural))} {bracketed(antt_mark(urban))}")
                 for rate, rural, urban in table]
        definitions.append(antt_definition(f"Table {number}: the rate, the rural and the urban distance",
                                           f"table{number}", "Line", items))
    return antt_file(
        sources_of(tables),
        f"{titles_of(tables)} as printed. Rates in lbs/min, distances in hundredths of a mile.",
        [LIST_IMPORT, forms_import(marks_used(marks) + ["Line", "line"])], definitions)


def printed_c1(flammables):
    items = [(x["name"], f"heat {x['cas']} {x['heat']}") for x in flammables]
    return antt_file(
        "data/c1.tsv", "Exhibit C-1 as printed. Heats of combustion in whole kilojoules per kilogram.",
        [LIST_IMPORT, printed_import("combustion", ["HeatLine", "heat"])],
        [antt_definition("Exhibit C-1, flammable substances, in the printed order: CAS number, heat of combustion", "c1", "HeatLine",
                         items)])


def rate_vectors(lines):
    items = [(None, f"rate 0x{card} {' '.join(numbers)}") for card, *numbers in lines]
    return antt_file(
        "tests/vectors/rate.tsv", "Cards with their exact rates and slacks, as an independent reading of the papers has them.",
        [LIST_IMPORT, "use Rattle.rate_gap.specs.RateLines.{RateLine, rate}"],
        [antt_definition("a card, numerator and denominator of its exact rate, and of the slack: 0 on routes 1 and 3", "vectors", "RateLine",
                         items)])


# ---- Writing the code's arrays and functions ----

# The layout is that of `rt fmt`: an array of more than so many characters is filled over lines of at most so many, the comma
# behind the last number not counted unless the array is a field.
LINE_WIDTH = 99
ARRAY_WIDTH = 60


def rt_file(sources, parts, ghosts=(), uses=()):
    """A file of the code: the words that its contracts cite, what it uses, and its items."""
    lines = [f"// Generated by tools/generate.py from {sources}: do not edit."] + list(ghosts)
    if uses:
        lines += [""] + list(uses)
    for part in parts:
        lines += [""] + part
    return "\n".join(lines) + "\n"


def rt_numbers(numbers, indent=0, field=False):
    """An array's text from its bracket on, where its first line is indented so far."""
    texts = [str(number) for number in numbers]
    flat_text = f"[{', '.join(texts)}]"
    if len(flat_text) <= ARRAY_WIDTH:
        return flat_text
    margin = " " * (indent + 4)
    lines = [margin + texts[0]]
    for place, text in enumerate(texts[1:], start=2):
        longer = f"{lines[-1]}, {text}"
        if len(longer) + (field or place < len(texts)) <= LINE_WIDTH:
            lines[-1] = longer
        else:
            lines[-1] += ","
            lines.append(margin + text)
    return "\n".join(["[", *lines]) + ",\n" + " " * indent + "]"


def rt_nested(items, indent=0):
    """An array of arrays' text, each on lines of its own, down to arrays of numbers."""
    if not isinstance(items[0], (list, tuple)):
        return rt_numbers(items, indent)
    margin = " " * (indent + 4)
    return "\n".join(["[", *(f"{margin}{rt_nested(item, indent + 4)}," for item in items), " " * indent + "]"])


def rt_tables(comment, name, tables):
    """A constant of several tables of sixteen-bit numbers, alike in their rows and columns."""
    rows, columns = len(tables[0]), len(tables[0][0])
    expect(all(0 <= number < 2**16 for number in flat(flat(tables))), name, "a number does not fit 16 bits")
    return [f"// {comment}", f"pub const {name}: [[[u16; {columns}]; {rows}]; {len(tables)}] = {rt_nested(tables)};"]


def rt_array(comment, name, width, numbers):
    expect(all(0 <= number < 2**width for number in numbers), name, f"a number does not fit {width} bits")
    return [f"// {comment}", f"pub const {name}: [u{width}; {len(numbers)}] = {rt_numbers(numbers)};"]


def rt_number(comment, name, width, number):
    expect(0 <= number < 2**width, name, f"the number does not fit {width} bits")
    return [f"// {comment}", f"pub const {name}: u{width} = {number};"]


def rt_record(name, fields, indent):
    """A struct's text, a field a line, where its first line is indented so far."""
    margin = " " * indent
    return "\n".join([f"{name} {{", *(f"{margin}    {field}: {number}," for field, number in fields.items()), margin + "}"])


def rt_constant(comment, name, kind, struct, arrays):
    """A constant of a struct whose fields are arrays, each the pair of its entries' width and of its numbers."""
    for field, (width, numbers) in arrays.items():
        expect(all(0 <= number < 2**width for number in numbers), f"{name}.{field}", f"a number does not fit {width} bits")
    record = rt_record(struct, {field: rt_numbers(numbers, 4, field=True) for field, (_, numbers) in arrays.items()}, 0)
    return [f"// {comment}", f"pub const {name}: {kind} = {record};"]


# How far the arms of an `rt_match` are indented.
ARM_INDENT = 8


def rt_match(comment, signature, ensures, key, arms, other, tactic=()):
    """A function that is a table: an arm for each key, which is the triple of a comment above it, or None, its key and value."""
    margin = " " * ARM_INDENT
    lines = [f"// {comment}", *tactic, f"pub fn {signature}", f"    ensures {{ {ensures} }}", "{", f"    match {key} {{"]
    for note, number, value in arms:
        if note:
            lines.append(f"{margin}// {note}")
        lines.append(f"{margin}{number} => {value},")
    return lines + [f"{margin}_ => {other},", "    }", "}"]


def answers_proof(crate, module, function, why, imports, unfolding, answers):
    """The answers to the goals of a function of a table, each the pair of the goal's name and of its proof."""
    lines = [
        f"-- Generated by tools/generate.py: do not edit. `{crate}::{module}::{function}` meets its contract: {why}",
        *imports,
        f"use Rattle.{crate}.proofs.{module}.{function}.Goals as goal",
    ]
    for name, proof in answers:
        lines += ["", f"pub {name} : goal.{name}", f"unfolding {unfolding}", f"{name} c = {proof}"]
    return "\n".join(lines) + "\n"


def arms_tactic(unfolding, last):
    """By what the check proves an `rt_match` alone: an arm's value is computed from the printed lists at the arm's own key, and the
    law of the name says what is there for a number that no arm has."""
    words = ", ".join(f"crate::specs::{word}" for word in unfolding)
    return (f"#[tactic(auto, unfolding({words}, search::specs::Places::look_up), "
            f"using(search::specs::Arms::arm, crate::proofs::Laws::{last}))]",)


# What is known in the last arm of a `match`, and the name of its goal.
DEFAULT_GOAL = "returns-in_default"
DEFAULT_KNOWN = "c.in_default.in_default-own.rest"


def rt_cell(cell):
    return f"Cell::{CELL_VARIANTS[cell]}" if cell in CELL_VARIANTS else f"Cell::Factor({cell})"


def rt_corrections(cells):
    return rt_record("Corrections", dict(zip(("at30", "at35", "at40", "at45", "at50"), map(rt_cell, cells))), ARM_INDENT + 4)


def rt_substance(kind, substance, columns, indent=ARM_INDENT, **more):
    """A case of `Toxic` with its struct, both named after the kind in crates/exhibits/src/lib.rt."""
    fields = {column: substance[column] for column in columns.split()}
    for column in fields.keys() & {"plume", "alternative"}:
        fields[column] = f"Plume::{fields[column]}"
    return f"Toxic::Of{kind}({rt_record(kind, {**fields, **more}, indent)})"


def exhibit_lines(gases, liquids, factors):
    arms = [(x["name"], x["cas"], rt_substance("Gas", x, "lfb df endpoint plume")) for x in gases]
    arms += [(x["name"], x["cas"],
              rt_substance("Liquid", x, "lfa lfb df endpoint plume alternative", corrections=rt_corrections(y["cells"])))
             for x, y in zip(liquids, factors)]
    return rt_file(
        "data/b1.tsv, b2.tsv and b4.tsv",
        [rt_match("What the exhibits say of a CAS number: Exhibit B-1, then B-2 with its factors of B-4, in the printed order.",
                  "toxic_of(cas: u32) -> Toxic", "result ≡ toxic_of cas", "cas", arms, "Toxic::NotListed",
                  arms_tactic(("Exhibits::toxic_of", "Exhibits::factors_of", "PrintedB1::b1", "PrintedB2::b2", "PrintedB4::b4"),
                              "no_line"))],
        ["ghost use Rattle.std.specs.Prelude.{◌≡◌};", "ghost use Rattle.exhibits.specs.Exhibits.{toxic_of};"],
        ["use crate::{Cell, Corrections, Gas, Liquid, Plume, Toxic};"])


def by_substance(solutions):
    """The substances of Exhibit B-3 in their order, each with its lines, the lowest concentration first."""
    groups = {}
    for line in solutions:
        groups.setdefault(line["cas"], []).insert(0, line)
    return groups


def solution_arm(lines):
    """What a substance's arm computes: the line of the first concentration that is not below the one asked for."""
    margin, out = " " * ARM_INDENT, "Toxic::OutOfRange"
    steps = [f"..={x['percent']} => {rt_substance('Solution', x, 'lfa df endpoint plume alternative', ARM_INDENT + 4)}" for x in lines]
    arms = [f"0 => {out}", *steps, f"_ => {out}"]
    return "\n".join(["match tenths {", *(f"{margin}    {arm}," for arm in arms), margin + "}"])


def solution_lines(solutions):
    arms = [(lines[0]["name"], cas, solution_arm(lines)) for cas, lines in by_substance(solutions).items()]
    return rt_file(
        "data/b3.tsv",
        [rt_match("What Exhibit B-3 says of a CAS number at a concentration: the lowest printed one not below it is read.",
                  "solution_of(cas: u32, tenths: u16) -> Toxic", "result ≡ solution_of cas tenths", "cas", arms, "Toxic::NotListed")],
        ["ghost use Rattle.std.specs.Prelude.{◌≡◌};", "ghost use Rattle.solutions.specs.Solutions.{solution_of};"],
        ["use exhibits::{Plume, Solution, Toxic};"])


def solution_proof(solutions):
    """The answers: of each arm zero, its steps and what is above them, then the end of the `match`."""
    groups = by_substance(solutions)
    # The prover's names: of places alike, the second ends in -tenths, the third in -tenths-2.
    count = {"in_default": 1}

    def place(name):
        count[name] = count.get(name, 0) + 1
        return name + {1: "", 2: "-tenths"}.get(count[name], f"-tenths-{count[name] - 1}")

    steps = []
    for cas, lines in groups.items():
        bounds = [line["percent"] for line in lines]
        steps += [(place("in-0"), f"at_zero {cas}"), (place(f"in-0-to-{bounds[0]}"), f"up_to {cas} {bounds[0]} refl")]
        steps += [(place(f"in-0-to-{high}"), f"between {cas} {low} {high} refl") for low, high in zip(bounds, bounds[1:])]
        steps.append((place("in_default"), f"above {cas} {bounds[-1]} refl"))
    answers = [(f"returns-{name}", f"search ({step}, rules)") for name, step in steps]
    return answers_proof(
        "solutions", "tables", "solution_of", "each step of an arm\n-- is what is printed at its upper end. Assumes nothing.",
        ["use mathlib.Core.Path.{refl}", "use mathlib.Core.List.{[], ◌∷◌}", "use borrow.Author.Rules.{rules}",
         "use Rattle.search.specs.Places.{among}", "use Rattle.solutions.specs.PrintedB3.{b3}",
         "use Rattle.solutions.specs.Solutions.{lines_of, lowest, highest, bad_percent, solution_of}",
         "use Rattle.solutions.proofs.Steps.{read_at, at_zero, up_to, between, above, no_line}"],
        "solution_of bad_percent read_at among lines_of lowest highest b3",
        answers + [(DEFAULT_GOAL, f"no_line _ _ ({antt_list(groups)}) refl {DEFAULT_KNOWN}")])


def neutral_constants(tables):
    constants = []
    for number, table in tables.items():
        marks = [mark for _, _, mark in table["closed"]] + [table["above"][1]]
        constants.append(rt_constant(
            f"Table {number}: the upper bounds of the closed ranges, and the entries in use, the last for the open range.",
            f"TABLE_{number}", f"Ranges<{len(table['closed'])}, {len(marks)}>", "Ranges",
            {"bounds": (32, [upper for _, upper, _ in table["closed"]]), "entries": (16, column_in_use(marks))}))
    return rt_file(sources_of(tables), constants, uses=["use rules::Ranges;"])


def alike(tables):
    """The first of some dense tables, where all have its rates and endpoints."""
    first, where = next(iter(tables.values())), sources_of(tables)
    expect(all(table["rates"] == first["rates"] for table in tables.values()), where, "they differ in their rates")
    expect(all(table["endpoints"] == first["endpoints"] for table in tables.values()), where, "they differ in their endpoints")
    return first


def column_cuts(title, first):
    return rt_array(f"{title}: the largest endpoint that reads each column but the last, in hundred-thousandths of mg/L.",
                    "COLUMN_UPTO", 64, endpoint_cuts(first["endpoints"]))


def dense_entries(table):
    return entries_in_use([[distance_read(mark) for mark in row] for row in table["marks"]])


def dense_rows(tables):
    first = alike(tables)
    return rt_file(sources_of(tables), [
        rt_array("Tables 5 to 8: the largest rate that reads each row but the last, in thousandths of a pound per minute.", "ROW_UPTO", 64,
                 rate_cuts(first["rates"])),
        rt_number("Tables 5 to 8: the rate of the last row, in thousandths of a pound per minute.", "LAST_ROW", 64,
                  1000 * first["rates"][-1]),
        column_cuts("Tables 5 to 8", first),
        rt_tables("Tables 5 to 8: the entries in use in hundredths of a mile, row by row.", "ENTRIES",
                  [dense_entries(table) for table in tables.values()]),
    ])


def lines_constant(number, table, what, rates):
    """A table of rates down and two columns across, by the rates that find its rows."""
    return rt_constant(
        f"Table {number}: {what}, and the entries in use.", f"TABLE_{number}", f"Lines<{len(table)}>", "Lines",
        {"rates": (64, rates), "rural": (16, column_in_use([rural for _, rural, _ in table])),
         "urban": (16, column_in_use([urban for _, _, urban in table]))})


def chemical_constants(tables):
    constants = []
    for number, table in tables.items():
        rates = [rate for rate, _, _ in table]
        constants.append(lines_constant(number, table, "the largest rate that reads each row, the last row's its own",
                                        rate_cuts(rates) + [1000 * rates[-1]]))
    return rt_file(sources_of(tables), constants, uses=["use crate::Lines;"])


def likely_dense_columns(tables):
    """The entries in use of Tables 18 to 21 column by column, since two neighbouring rows of one column are read."""
    first = alike(tables)
    return rt_file(sources_of(tables), [
        rt_array("Tables 18 to 21: the rates of the rows, in thousandths of a pound per minute.", "RATE", 64,
                 [1000 * rate for rate in first["rates"]]),
        column_cuts("Tables 18 to 21", first),
        rt_tables("Tables 18 to 21: the entries in use in hundredths of a mile, column by column.", "ENTRIES",
                  [list(zip(*dense_entries(table))) for table in tables.values()]),
    ])


def likely_chemical_constants(tables):
    constants = [lines_constant(number, table, "the rates of the rows", [1000 * rate for rate, _, _ in table])
                 for number, table in tables.items()]
    return rt_file(sources_of(tables), constants, uses=["use dispersion::Lines;"])


def heat_lines(flammables):
    return rt_file("data/c1.tsv", [
        rt_match("The heat of combustion of a flammable substance by its CAS number, in kilojoules per kilogram: Exhibit C-1, in the\n"
                 "// printed order; none for a substance that it does not list.",
                 "heat_of(cas: u32) -> Option<u32>", "result ≡ heat_of cas", "cas",
                 [(x["name"], x["cas"], f"Some({x['heat']})") for x in flammables], "None",
                 arms_tactic(("Heats::heat_of", "PrintedC1::c1"), "no_heat")),
    ], ["ghost use Rattle.std.specs.Prelude.{◌≡◌};", "ghost use Rattle.combustion.specs.Heats.{heat_of};"])


# ---- All together ----


def generated_files():
    """Every generated file: its path below the repository and its text."""
    gases, liquids, factors = read_exhibits()
    solutions = read_solutions()
    neutral = {number: read_neutral(number) for number in NEUTRAL_TABLES}
    dense = {number: read_dense(number) for number in DENSE_TABLES}
    chemical = {number: read_chemical(number) for number in CHEMICAL_TABLES}
    likely_neutral = {number: read_neutral(number) for number in LIKELY_NEUTRAL_TABLES}
    likely_dense = {number: read_dense(number) for number in LIKELY_DENSE_TABLES}
    likely_chemical = {number: read_chemical(number) for number in LIKELY_CHEMICAL_TABLES}
    flammables = read_heats()
    return {
        "crates/exhibits/specs/PrintedB1.antt": printed_b1(gases),
        "crates/exhibits/specs/PrintedB2.antt": printed_b2(liquids),
        "crates/exhibits/specs/PrintedB4.antt": printed_b4(factors),
        "crates/exhibits/src/tables.rt": exhibit_lines(gases, liquids, factors),
        "crates/solutions/specs/PrintedB3.antt": printed_b3(solutions),
        "crates/solutions/src/tables.rt": solution_lines(solutions),
        "crates/solutions/proofs/tables/solution_of/Answers.antt": solution_proof(solutions),
        "crates/neutral/specs/PrintedNeutral.antt": printed_neutral(neutral),
        "crates/neutral/src/tables.rt": neutral_constants(neutral),
        "crates/dense/specs/PrintedDense.antt": printed_dense(dense),
        "crates/dense/src/tables.rt": dense_rows(dense),
        "crates/dispersion/specs/PrintedChemical.antt": printed_chemical(chemical),
        "crates/dispersion/src/tables.rt": chemical_constants(chemical),
        "crates/likely_neutral/specs/PrintedNeutral.antt": printed_neutral(likely_neutral),
        "crates/likely_neutral/src/tables.rt": neutral_constants(likely_neutral),
        "crates/likely_dense/specs/PrintedDense.antt": printed_dense(likely_dense),
        "crates/likely_dense/src/tables.rt": likely_dense_columns(likely_dense),
        "crates/likely_tables/specs/PrintedChemical.antt": printed_chemical(likely_chemical),
        "crates/likely_tables/src/tables.rt": likely_chemical_constants(likely_chemical),
        "crates/combustion/specs/PrintedC1.antt": printed_c1(flammables),
        "crates/combustion/src/tables.rt": heat_lines(flammables),
        "crates/rate_gap/specs/Vectors.antt": rate_vectors(read_rate_lines()),
    }


def write(files):
    for name, text in files.items():
        path = os.path.join(ROOT, name)
        os.makedirs(os.path.dirname(path), exist_ok=True)
        with open(path, "wb") as file:
            file.write(text.encode("utf-8"))
    print(f"wrote {len(files)} generated files")


def standing(name):
    """The bytes of a file in the tree, or None where it is missing."""
    try:
        with open(os.path.join(ROOT, name), "rb") as file:
            return file.read()
    except FileNotFoundError:
        return None


def check(files):
    faults = 0
    for name, text in files.items():
        found = standing(name)
        if found != text.encode("utf-8"):
            print(f"{name}: {'missing' if found is None else 'differs from what tools/generate.py makes'}", file=sys.stderr)
            faults += 1
    if faults:
        sys.exit(1)
    print(f"{len(files)} generated files are up to date")


def main(arguments):
    if arguments not in ([], ["--check"]):
        sys.exit("usage: python3 tools/generate.py [--check]")
    try:
        files = generated_files()
    except Fault as fault:
        sys.exit(f"generate.py: {fault}")
    if arguments:
        check(files)
    else:
        write(files)


if __name__ == "__main__":
    main(sys.argv[1:])
