#!/usr/bin/env python3
"""Registers from a description of their cards, and back.

    python3 tools/register.py SOURCE REGISTER          the cards of SOURCE as a register
    python3 tools/register.py --show REGISTER          the cards of a register, as a description
    python3 tools/register.py --cases SOURCE FOLDER    the cases of SOURCE as FOLDER/stdin and FOLDER/stdout

With --check nothing is written: it exits 1 where a file is not what SOURCE makes.

A description has one card a line, '#' starts a comment:

    kind state ground containment cas pounds area wall temperature number

Each is a number as the card holds it (area in square feet, wall in hundredths of a foot, temperature in tenths of a
degree Celsius, or in its place a solution's concentration in tenths of a percent), with commas or none; a CAS number
with hyphens or none; or a word: toxic flammable; gas pressurized refrigerated liquid solution; rural urban; open dike
building shed-with-doors; '-' for zero. Nothing is held against document 01 but the width of a field, so that a register
can be described that has to be sent back.

    stored T MILES, F MILES

makes it a register of version 2, which stores two distances, right or wrong, with two decimals, or 'none' for zero.

    year T MILES, F MILES

makes it one of version 3, which stores them too, and whose cards may have two more numbers: the first and the last day on which
they are in force, 1 and 366 if they are left out. Without either line it is of version 1.

A file of cases has for each case:

    case LABEL       the line that is printed before the result
    room N           a call with an answer buffer of N bytes; without this line, the listing
    cards            as above, 'N * ' before a card stands for N such cards with rising numbers
    stored .., year ..    as above
    hex BYTES        the register as it is, instead of cards; also 'zeros N'
    = LINE           a line of the result that is expected
"""

import re
import struct
import sys
from pathlib import Path

WORDS = [{"toxic": 1, "flammable": 2}, {"gas": 1, "pressurized": 2, "refrigerated": 3, "liquid": 4, "solution": 5},
         {"rural": 1, "urban": 2}, {"open": 0, "dike": 1, "building": 2, "shed-with-doors": 3}]
SOLUTION = WORDS[1]["solution"]
# by a register's version, the bytes before its first card and those of a card
LAYOUTS = {1: (7, 24), 2: (11, 24), 3: (11, 28)}
HEADERS = {"stored": 2, "year": 3}
WHOLE_YEAR = (1, 366)
LISTING = 65535


def layout(state):
    """A card's fields: the ninth is a temperature with a sign, or a solution's concentration without one."""
    return ">BBBBIIIHHI" if state == SOLUTION else ">BBBBIIIHhI"


def packed(values):
    return struct.pack(layout(values[1]), *values)


def unpacked(data):
    return struct.unpack(layout(data[1]), data)


def field(place, word):
    if word == "-":
        return 0
    if place < len(WORDS) and word in WORDS[place]:
        return WORDS[place][word]
    if place == 4:
        return int(word.replace("-", ""))
    return int(word.replace(",", ""))


def card(line):
    """A card's bytes without a season, and its season if it has one."""
    words = line.split()
    if len(words) not in (10, 12):
        sys.exit(f"ten fields make a card, twelve one with a season: {line}")
    try:
        days = tuple(int(word) for word in words[10:])
        struct.pack(f">{len(days)}H", *days)
        return packed([field(i, word) for i, word in enumerate(words[:10])]), days
    except (ValueError, struct.error) as error:
        sys.exit(f"{error}: {line}")


def cards(line):
    """The cards of a line: one, or as many as it says, each with the next number."""
    count, star, rest = line.partition(" * ")
    if not star:
        return [card(line)]
    data, days = card(rest)
    first = unpacked(data)
    return [(packed([*first[:9], first[9] + i]), days) for i in range(int(count))]


def hundredths(miles):
    """A distance as a header stores it, 'none' as zero."""
    if miles == "none":
        return 0
    if not re.fullmatch(r"[0-9]+\.[0-9]{2}", miles):
        sys.exit(f"miles with two decimals, or none: {miles}")
    return int(miles.replace(".", ""))


def header(line):
    """The version that a line tells, and the bytes of its two distances; nothing if it is no such line."""
    word = line.partition(" ")[0]
    if word not in HEADERS:
        return None
    told = re.fullmatch(word + r" T (\S+), F (\S+)", line)
    if not told:
        sys.exit(f"{word} T MILES, F MILES: {line}")
    try:
        return HEADERS[word], struct.pack(">HH", *map(hundredths, told.groups()))
    except struct.error as error:
        sys.exit(f"{error}: {line}")


def register(found, told=None):
    """The register of these cards: of version 1 where no line told what it stores."""
    version, stored = told or (1, b"")
    if version != 3 and any(days for _, days in found):
        sys.exit("a card has a season, and its register is not of version 3")
    body = b"".join(data + (struct.pack(">HH", *(days or WHOLE_YEAR)) if version == 3 else b"") for data, days in found)
    return struct.pack(">IBH", 7 + len(stored) + len(body), version, len(found)) + stored + body


def lines_of(path):
    for line in path.read_text().splitlines():
        line = line.partition("#")[0].strip()
        if line:
            yield line


def described(path):
    found, told = [], None
    for line in lines_of(path):
        if header(line):
            told = header(line)
        else:
            found += cards(line)
    return register(found, told)


def miles(stored):
    return f"{stored // 100}.{stored % 100:02}" if stored else "none"


def shown(data):
    """A description of the register that the header announces; what stands behind it is not looked at."""
    length, version, count = struct.unpack(">IBH", data[:7])
    start, size = LAYOUTS.get(version, (0, 0))
    if start == 0 or not length == len(data) == start + size * count:
        sys.exit("this is no register: its length, version or count is wrong")
    names = [{number: word for word, number in words.items()} for words in WORDS]
    text = "# kind state ground containment cas pounds area wall temperature number"
    text += " first last\n" if version == 3 else "\n"
    for word, told in HEADERS.items():
        if version == told:
            toxic, flammable = struct.unpack(">HH", data[7:11])
            text += f"{word} T {miles(toxic)}, F {miles(flammable)}\n"
    for at in range(start, length, size):
        values = list(unpacked(data[at:at + 24]))
        if values[0] == 2 and values[1:4] == [0, 0, 0]:
            values[1:4] = ["-", "-", "-"]
        words = [names[i].get(v, v) if i < len(names) else v for i, v in enumerate(values)]
        words += struct.unpack(">HH", data[at + 24:at + 28]) if version == 3 else []
        text += " ".join(str(word) for word in words) + "\n"
    return text.encode()


def run(path):
    """The input of the test program, and what it has to print."""
    given, expected, case = b"", "", None

    def ended():
        if case is None:
            return b""
        data = case["raw"] if case["raw"] is not None else register(case["cards"], case["told"])
        label = case["label"].encode()
        return struct.pack(">H", len(label)) + label + struct.pack(">HH", case["room"], len(data)) + data

    for line in path.read_text().splitlines():
        line = line.strip()
        word, _, rest = line.partition(" ")
        if not line or line.startswith("#"):
            continue
        if word == "case":
            given += ended()
            case = {"label": rest, "room": LISTING, "cards": [], "told": None, "raw": None}
            expected += f"# {rest}\n"
        elif word == "room":
            case["room"] = int(rest)
        elif word == "hex":
            case["raw"] = bytes.fromhex(rest)
        elif word == "zeros":
            case["raw"] = bytes(int(rest))
        elif header(line):
            case["told"] = header(line)
        elif word == "=":
            expected += f"{rest}\n"
        else:
            case["cards"] += cards(line.partition("#")[0].strip())
    return given + ended(), expected.encode()


def put(path, data, check):
    """Whether the file is as it should be, once it is written where that is asked for."""
    if not check:
        path.write_bytes(data)
        return True
    same = path.exists() and path.read_bytes() == data
    if not same:
        print(f"{path} is not up to date", file=sys.stderr)
    return same


def main(words):
    check = "--check" in words
    words = [word for word in words if word != "--check"]
    if len(words) == 2 and words[0] == "--show":
        sys.stdout.buffer.write(shown(Path(words[1]).read_bytes()))
    elif len(words) == 3 and words[0] == "--cases":
        given, expected = run(Path(words[1]))
        results = [put(Path(words[2]) / "stdin", given, check), put(Path(words[2]) / "stdout", expected, check)]
        sys.exit(0 if all(results) else 1)
    elif len(words) == 2 and not words[0].startswith("-"):
        sys.exit(0 if put(Path(words[1]), described(Path(words[0])), check) else 1)
    else:
        sys.exit(__doc__)


if __name__ == "__main__":
    main(sys.argv[1:])
