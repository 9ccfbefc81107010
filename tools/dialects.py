#!/usr/bin/env python3
"""Rewrites a deck that another program wrote, or is meant for, as one that is read with the same meaning here.

    tools/dialects.py IN OUT [--as glpsol|cbc|lp_solve] [--max | --min | --turned] [--constant X]
                             [--rhs-constant added|taken] [--integers one|binary|open] [--low N] [--end N]

Each change is told in one line of the error output, with the name of its rule. The rules stand in a table of
docs/other-programs.md. A deck that cannot be rewritten is refused with a reason, and OUT is not written.

Status 0: OUT was written. Status 1: the deck is refused. Status 2: the words of the command are wrong, or a file cannot be
opened.
"""

import argparse
import re
import sys
from decimal import Decimal, localcontext

ORDER = ["NAME", "OBJSENSE", "ROWS", "COLUMNS", "RHS", "RANGES", "BOUNDS", "SOS", "ARCS"]
SET_HEADINGS = {"SOS": None, "SETS": None, "SOS1": "S1", "SOS2": "S2"}
SQUARE_HEADINGS = {"QUADOBJ", "QMATRIX", "QSECTION"}
SENSES = {"MAX": "MAX", "MAXIMIZE": "MAX", "MAXIMISE": "MAX", "MIN": "MIN", "MINIMIZE": "MIN", "MINIMISE": "MIN"}
WITHOUT_VALUE = {"FR", "MI", "PL", "BV"}
NUMBER = re.compile(r"[-+]?(\d+\.?\d*|\.\d+)([eE][-+]?\d+)?\Z")
INFINITE = re.compile(r"[-+]?inf(inity)?\Z", re.IGNORECASE)
ENDLESS = Decimal("1e20")


class Refused(Exception):
    """A deck that cannot be rewritten, with the reason."""


class Line:
    """A data line: its number in the text, its words, its text, and the kind of sets that its heading says."""

    def __init__(self, number, text):
        self.number = number
        self.kind = None
        self.text = text
        self.words = text.split()


# Numbers


def is_number(word):
    return bool(NUMBER.match(word) or INFINITE.match(word))


def value_of(word):
    """The value of a numeral; infinity is 1e30."""
    if INFINITE.match(word):
        return Decimal("-1e30" if word.startswith("-") else "1e30")
    return Decimal(word)


def numeral(value):
    """The shortest numeral of a decimal, without an exponent."""
    if abs(value.adjusted()) > 500:
        raise Refused(f"the number {value} is too wide")
    text = format(value, "f")
    if "." in text:
        text = text.rstrip("0").rstrip(".")
    return "0" if text in ("-0", "") else text


def is_endless(word):
    return abs(value_of(word)) >= ENDLESS


# The text


class Deck:
    """The sections of a text, each with its data lines, as they stand."""

    def __init__(self, text):
        self.comments = []
        self.sections = {}
        self.name = ""
        self.sense = None
        self.squares = []
        self.headings = []
        self.ended = False
        self.notes = []
        self.split(text)

    def note(self, rule, text):
        self.notes.append(f"{rule}: {text}")

    def lines(self, section):
        return self.sections.setdefault(section, [])

    def split(self, text):
        section = None
        for number, raw in enumerate(text.split("\n"), 1):
            raw = raw.rstrip("\r")
            if raw.startswith("*"):
                if section is None:
                    self.comments.append(raw)
                continue
            if not raw.strip():
                continue
            if raw[0] in " \t":
                self.data(section, Line(number, raw.rstrip()))
                continue
            section = self.heading(number, raw.split())
            if section == "ENDATA":
                self.ended = True
                return

    def heading(self, number, words):
        word = words[0]
        self.headings.append(word)
        if word == "NAME":
            self.name = words[1] if len(words) > 1 else ""
        elif word == "OBJSENSE":
            if len(words) > 1:
                self.set_sense(number, words[1])
        elif word in SET_HEADINGS or word in SQUARE_HEADINGS or word in ORDER:
            pass
        elif word == "ENDATA":
            pass
        elif word == "QCMATRIX":
            raise Refused(f"line {number}: quadratic rows (QCMATRIX) cannot be written here")
        else:
            raise Refused(f"line {number}: the section {word} cannot be written here")
        if word == "QSECTION" and len(words) > 1:
            return word, words[1]
        return word

    def data(self, section, line):
        if section is None:
            raise Refused(f"line {line.number}: a data line before all sections")
        if section == "NAME":
            raise Refused(f"line {line.number}: a data line in NAME")
        if section == "OBJSENSE":
            self.set_sense(line.number, line.words[0])
        elif isinstance(section, tuple) or section in SQUARE_HEADINGS:
            self.squares.append((section, line))
        elif section in ("ROWS", "BOUNDS") and len(line.words) < 2:
            raise Refused(f"line {line.number}: a word is missing")
        elif section in SET_HEADINGS:
            line.kind = SET_HEADINGS[section]
            self.lines("SOS").append(line)
        else:
            self.lines(section).append(line)

    def set_sense(self, number, word):
        if word.upper() not in SENSES:
            raise Refused(f"line {number}: {word} is no sense")
        self.sense = SENSES[word.upper()]
        if word not in ("MAX", "MAXIMIZE", "MIN", "MINIMIZE"):
            self.note("sense", f"{word} at line {number} is written as {self.sense}")

    def objective(self):
        """The first N row."""
        for line in self.lines("ROWS"):
            if line.words[0] == "N":
                return line.words[1]
        raise Refused("no N row: there is no objective")

    def columns(self):
        """The columns, in the order of the text."""
        names = {}
        for line in self.lines("COLUMNS"):
            if "'MARKER'" not in line.words:
                names.setdefault(line.words[0], line.number)
        return names

    def text(self):
        out = list(self.comments)
        out.append("NAME " + self.name if self.name else "NAME")
        if self.sense:
            out += ["OBJSENSE", " " + self.sense]
        for section in ORDER[2:]:
            lines = self.lines(section)
            if lines or section in ("ROWS", "COLUMNS"):
                out.append(section)
                out += [line.text for line in lines]
        out.append("ENDATA")
        return "\n".join(out) + "\n"


# The rule `order`: the sections come in one order, each once.


def order(deck):
    if not deck.ended:
        raise Refused("no line ENDATA: the file may be cut off")
    rank = {word: place for place, word in enumerate(ORDER)}
    rank.update({word: rank["SOS"] for word in SET_HEADINGS})
    rank.update({word: rank["ARCS"] for word in SQUARE_HEADINGS})
    places = [rank[word] for word in deck.headings if word != "ENDATA"]
    if any(right <= left for left, right in zip(places, places[1:])):
        deck.note("order", "the sections are written as " + " ".join(ORDER))


# The rule `sense`


def turned(deck):
    """A deck that minimises the negative of a maximum becomes that maximum. Its constant stays as it stands."""
    objective = deck.objective()
    count = 0
    for line in deck.lines("COLUMNS"):
        words = list(line.words)
        for place in range(1, len(words) - 1, 2):
            if words[place] == objective and is_number(words[place + 1]):
                words[place + 1] = numeral(value_of(words[place + 1]).copy_negate())
                count += 1
        if words != line.words:
            put_words(line, words)
    deck.note("sense", f"{count} numbers of {objective} in COLUMNS are turned")
    if deck.squares or deck.lines("ARCS"):
        raise Refused("--turned is for decks without squares")


def sense(deck, asked):
    if asked is None or deck.sense == asked or (deck.sense is None and asked == "MIN"):
        return
    deck.note("sense", f"OBJSENSE {asked}" + (f" in place of {deck.sense}" if deck.sense else ""))
    deck.sense = asked


# The rule `constant`


def pairs(words):
    """The set and the pairs (row, place of the number) of a line of RHS or RANGES."""
    first = 0 if len(words) % 2 == 0 else 1
    return words[0] if first else None, [(words[i], i + 1) for i in range(first, len(words) - 1, 2)]


def put_words(line, words):
    line.words = words
    line.text = " " + " ".join(words)


def used_set(lines):
    """The set of a section's first line."""
    return pairs(lines[0].words)[0] if lines else None


def constant(deck, given, reading, program):
    objective = deck.objective()
    if given is None and reading is None:
        reading = {"glpsol": "added", "cbc": "taken", "lp_solve": "taken" if deck.sense == "MAX" else "added"}.get(program)
    lines = deck.lines("RHS")
    used = used_set(lines)
    for line in list(lines):
        words = list(line.words)
        name, found = pairs(words)
        if name != used:
            continue
        for row, place in reversed(found):
            if row != objective or not is_number(words[place]):
                continue
            if given is not None:
                deck.note("constant", f"the number {words[place]} of {row} in RHS, line {line.number}, is left out")
                del words[place - 1 : place + 1]
            elif reading == "added":
                other = numeral(value_of(words[place]).copy_negate())
                deck.note("constant", f"the number {words[place]} of {row} in RHS, line {line.number}, is written as {other}")
                words[place] = other
            elif reading is None:
                deck.note("constant", f"the number {words[place]} of {row} in RHS, line {line.number}, is taken off; "
                          "--rhs-constant added is for a program that adds it")
        if words != line.words:
            if len(words) < 2:
                lines.remove(line)
            else:
                put_words(line, words)
    if given is not None and given != 0:
        other = numeral(given.copy_negate())
        deck.note("constant", f"{numeral(given)} is written as {other} of {objective} in RHS")
        name = [used] if used else [] if lines else ["RHS"]
        lines.append(Line(0, " " + " ".join(name + [objective, other])))


# The rule `infinity`


def infinity(deck):
    kinds = {line.words[1]: line for line in deck.lines("ROWS") if len(line.words) > 1}
    ranges(deck, kinds)
    sides(deck, kinds)
    for line in deck.lines("BOUNDS"):
        words = list(line.words)
        if INFINITE.match(words[-1]) and len(words) > 2:
            words[-1] = numeral(value_of(words[-1]))
            deck.note("infinity", f"{line.words[-1]} at line {line.number} is written as 1e30 with its sign")
            put_words(line, words)


def ranges(deck, kinds):
    """An endless range of an L or G row is left out; of an E row it makes the row one-sided."""
    used = used_set(deck.lines("RANGES"))
    for line in list(deck.lines("RANGES")):
        words = list(line.words)
        name, found = pairs(words)
        for row, place in reversed(found if name == used else []):
            if not is_number(words[place]) or not is_endless(words[place]):
                continue
            kind = kinds[row].words[0] if row in kinds else ""
            deck.note("infinity", f"the range {words[place]} of {row}, line {line.number}, is left out")
            if kind == "E":
                put_words(kinds[row], ["L" if words[place].startswith("-") else "G", row])
            del words[place - 1 : place + 1]
        if words != line.words:
            if len(words) < 2:
                deck.lines("RANGES").remove(line)
            else:
                put_words(line, words)


def sides(deck, kinds):
    """A row whose only side is infinite becomes an N row."""
    ranged = {row for line in deck.lines("RANGES") for row, _ in pairs(line.words)[1]}
    used = used_set(deck.lines("RHS"))
    for line in list(deck.lines("RHS")):
        words = list(line.words)
        name, found = pairs(words)
        for row, place in reversed(found if name == used else []):
            kind = kinds[row].words[0] if row in kinds else "N"
            if kind == "N" or not is_number(words[place]) or not is_endless(words[place]):
                continue
            below = value_of(words[place]) < 0
            if row in ranged or (kind, below) not in (("L", False), ("G", True)):
                raise Refused(f"line {line.number}: the side {words[place]} of the row {row} leaves no point")
            deck.note("infinity", f"the row {row} without a side, line {line.number}, is written as an N row")
            put_words(kinds[row], ["N", row])
            rows = deck.lines("ROWS")
            rows.remove(kinds[row])
            rows.append(kinds[row])
            del words[place - 1 : place + 1]
        if words != line.words:
            if len(words) < 2:
                deck.lines("RHS").remove(line)
            else:
                put_words(line, words)


# The rule `sets`


def sets(deck):
    marked_sets(deck)
    rows = {line.words[1] for line in deck.lines("ROWS") if len(line.words) > 1}
    columns = deck.columns()
    heads = {line.words[1] for line in deck.lines("SOS") if line.words[0] in ("S1", "S2") and len(line.words) > 1}
    counted = 0
    members = 0
    for line in deck.lines("SOS"):
        words = line.words
        if is_head(line, columns):
            kind = words[0] if words[0] in ("S1", "S2") else line.kind
            name = set_name(words[1:], rows)
            if not name:
                counted += 1
                while f"SOS{counted}" in heads:
                    counted += 1
                name = [f"SOS{counted}"]
            if words != [kind] + name:
                deck.note("sets", f"line {line.number}, {' '.join(words)}, is written as {' '.join([kind] + name)}")
                put_words(line, [kind] + name)
        elif len(words) == 3 and words[1] in columns and is_number(words[2]):
            members += 1
            put_words(line, words[1:])
    if members:
        deck.note("sets", f"the first words of {members} lines of members are left out")


def set_name(words, rows):
    """The name of a set, and its reference row: without a word in front, and without a priority."""
    if len(words) >= 2 and words[0] in ("SOS", "SET") and not is_number(words[1]) and words[1] not in rows:
        words = words[1:]
    if len(words) == 2 and is_number(words[1]) and words[1] not in rows:
        words = words[:1]
    return words


def is_head(line, columns):
    """Whether a line of a section of sets begins a set. Under a heading SOS1 or SOS2 a set begins with the word SOS."""
    if line.words[0] in ("S1", "S2"):
        return True
    return line.kind is not None and line.words[0] in ("SOS", "SET") and len(line.words) > 1 and line.words[1] not in columns


def marked_sets(deck):
    """Sets between markers SOSORG and SOSEND among the columns; their weights count from 1."""
    left, kind, seen, weight = [], None, set(), 0
    for line in deck.lines("COLUMNS"):
        words = line.words
        if words[-1] == "'SOSORG'":
            kind = words[0] if words[0] in ("S1", "S2") else "S1"
            name = words[1] if words[0] in ("S1", "S2") else words[0]
            deck.note("sets", f"the set {name} between markers, line {line.number}, is written in SOS, as {kind}")
            deck.lines("SOS").append(Line(line.number, f" {kind} {name}"))
            seen, weight = set(), 0
            continue
        if words[-1] == "'SOSEND'":
            kind = None
            continue
        if kind and words[0] not in seen and "'MARKER'" not in words:
            seen.add(words[0])
            weight += 1
            deck.lines("SOS").append(Line(line.number, f" {words[0]} {weight}"))
        left.append(line)
    deck.sections["COLUMNS"] = left


# The rule `squares`


def squares(deck):
    objective = deck.objective() if deck.squares else ""
    arcs = {}
    for section, line in deck.squares:
        if isinstance(section, tuple) and section[1] != objective:
            raise Refused(f"line {line.number}: quadratic rows (QSECTION {section[1]}) cannot be written here")
        words = line.words
        if len(words) not in (3, 5):
            raise Refused(f"line {line.number}: a quadratic term has two columns and a number")
        for place in range(1, len(words), 2):
            square(deck, line, words[0], words[place], words[place + 1], arcs)
    for column, value in arcs.items():
        deck.lines("ARCS").append(Line(0, f" Q {objective} {column} {numeral(value)}"))
    if arcs:
        deck.note("squares", f"{len(arcs)} numbers on the diagonal are halved and written in ARCS")


def square(deck, line, left, right, word, arcs):
    if not is_number(word):
        raise Refused(f"line {line.number}: {word} is no number")
    if value_of(word) == 0:
        return
    if left != right:
        raise Refused(f"line {line.number}: the product of {left} and {right} cannot be written here; "
                      "squares of one column alone can")
    if left in arcs:
        raise Refused(f"line {line.number}: a second square of {left}")
    with localcontext() as context:
        context.prec = 80
        arcs[left] = value_of(word) / 2


# The rules `integers` and `ends`


def ends(deck, low, high, integers, program):
    if integers is None:
        integers = {"glpsol": "one", "cbc": "binary"}.get(program, "open")
    lines = deck.lines("BOUNDS")
    blank_ends(deck, lines, high, program)
    used = bound_words(lines[0].words)[0] if lines else None
    name = [used] if used else []
    wanted = columns_with_ends(deck, used)
    known = known_ends(lines, used)
    for column, kinds in wanted.items():
        at = known.get(column, {"low": "0", "high": None, "lines": 0, "sets_high": False})
        unset = integers == "one" and not at["sets_high"] or integers == "binary" and at["lines"] == 0
        if "integer" in kinds and at["high"] is None and unset:
            deck.note("integers", f"{column} is at most 1")
            lines.append(Line(0, " " + " ".join(["UP"] + name + [column, "1"])))
            at = dict(at, high="1")
        if at["low"] is None and low is not None:
            deck.note("ends", f"{column} is at least {numeral(low)}")
            lines.append(Line(0, " " + " ".join(["LO"] + name + [column, numeral(low)])))
            at = dict(at, low=low)
        if at["high"] is None and high is not None:
            deck.note("ends", f"{column} is at most {numeral(high)}")
            lines.append(Line(0, " " + " ".join(["UP"] + name + [column, numeral(high)])))
            at = dict(at, high=high)
        for side in ("low", "high"):
            if at[side] is None and not ("semi" in kinds and side == "low"):
                what = "--low" if side == "low" else "--end"
                deck.note("ends", f"{column} has no {side} end, and will be refused: {what} N gives it one")


def blank_ends(deck, lines, high, program):
    """A semicontinuous column without a number, or with an endless one, gets the high end that is asked for."""
    for line in lines:
        words = line.words
        if words[0] != "SC":
            continue
        if is_number(words[-1]) and not is_endless(words[-1]) and not (program == "lp_solve" and value_of(words[-1]) == 0):
            continue
        words = words[:-1] if is_number(words[-1]) else words
        if high is None:
            raise Refused(f"line {line.number}: {words[-1]} is semicontinuous and has no high end: --end N gives it one")
        deck.note("ends", f"{words[-1]}, which is semicontinuous, is at most {numeral(high)}")
        put_words(line, words + [numeral(high)])


def bound_words(words):
    """The set, the column and the number of a line of BOUNDS."""
    kind = words[0]
    count = 2 if kind in WITHOUT_VALUE else 3
    if len(words) > count:
        return words[1], words[2], words[3] if len(words) > 3 else None
    return None, words[1], words[2] if len(words) > 2 else None


def columns_with_ends(deck, used):
    """The columns that need two finite ends, and why, in the order of the text."""
    wanted = {column: set() for column in deck.columns()}
    between = False
    for line in deck.lines("COLUMNS"):
        if "'MARKER'" in line.words:
            between = line.words[-1] == "'INTORG'" or (between and line.words[-1] != "'INTEND'")
        elif between:
            wanted[line.words[0]].add("integer")
    for line in deck.lines("BOUNDS"):
        name, column, _ = bound_words(line.words)
        if name == used and column in wanted:
            if line.words[0] == "SC":
                wanted[column].add("semi")
            if line.words[0] in ("BV", "LI", "UI"):
                wanted[column].add("integer")
    for line in deck.lines("SOS"):
        if line.words[0] not in ("S1", "S2") and line.words[0] in wanted:
            wanted[line.words[0]].add("member")
    for line in deck.lines("ARCS"):
        if len(line.words) == 4 and line.words[2] in wanted:
            wanted[line.words[2]].add("arc")
    return {column: kinds for column, kinds in wanted.items() if kinds}


def known_ends(lines, used):
    """The ends that the lines of the used set give, as they are read here."""
    known = {}
    for line in lines:
        name, column, number = bound_words(line.words)
        if name != used:
            continue
        at = known.setdefault(column, {"low": "0", "high": None, "lines": 0, "sets_high": False, "sets_low": False})
        at["lines"] += 1
        kind = line.words[0]
        value = value_of(number) if number is not None and is_number(number) else None
        if kind in ("FR", "MI"):
            at.update(low=None, sets_low=True)
        if kind in ("FR", "PL"):
            at.update(high=None, sets_high=True)
        if kind == "BV":
            at.update(low="0", high="1", sets_low=True, sets_high=True)
        if kind in ("LO", "LI", "FX") and value is not None:
            at.update(low=None if value <= -ENDLESS else number, sets_low=True)
        if kind in ("UP", "UI", "FX", "SC") and value is not None:
            if kind in ("UP", "UI") and value < 0 and not at["sets_low"]:
                at.update(low=None)
            at.update(high=None if value >= ENDLESS else number, sets_high=True)
    return known


# All rules


def rewrite(text, words):
    deck = Deck(text)
    order(deck)
    constant(deck, words.constant, words.rhs_constant, words.program)
    if words.turned:
        turned(deck)
    sense(deck, "MAX" if words.max or words.turned else "MIN" if words.min else None)
    infinity(deck)
    sets(deck)
    squares(deck)
    ends(deck, words.low, words.end, words.integers, words.program)
    if words.program is None and any("lp_solve" in line for line in deck.comments):
        deck.note("as", "lp_solve wrote this file: --as lp_solve follows it")
    return deck


def number_word(word):
    if not NUMBER.match(word):
        raise argparse.ArgumentTypeError(f"{word} is no number")
    return Decimal(word)


def main():
    parser = argparse.ArgumentParser(prog="dialects.py", description=__doc__.split("\n")[0])
    parser.add_argument("source", metavar="IN")
    parser.add_argument("target", metavar="OUT")
    parser.add_argument("--as", dest="program", choices=["glpsol", "cbc", "lp_solve"],
                        help="the program that the deck is of")
    parser.add_argument("--max", action="store_true", help="the objective is maximised")
    parser.add_argument("--min", action="store_true", help="the objective is minimised")
    parser.add_argument("--turned", action="store_true",
                        help="the deck minimises the negative of a maximum, but for its constant")
    parser.add_argument("--constant", type=number_word, metavar="X", help="X is added to the objective")
    parser.add_argument("--rhs-constant", choices=["added", "taken"],
                        help="the number of the objective in RHS is added to it, or taken off")
    parser.add_argument("--integers", choices=["one", "binary", "open"],
                        help="an integer column is at most 1 where no bound sets its high end, or where it has no bound at "
                        "all, or has no high end")
    parser.add_argument("--low", type=number_word, metavar="N", help="the low end of columns that need one")
    parser.add_argument("--end", type=number_word, metavar="N", help="the high end of columns that need one")
    words = parser.parse_args()
    if words.max + words.min + words.turned > 1:
        parser.error("--max, --min and --turned exclude each other")
    try:
        with open(words.source, encoding="utf-8", errors="surrogateescape", newline="") as file:
            deck = rewrite(file.read(), words)
        for note in deck.notes:
            print(f"dialects: {note}", file=sys.stderr)
        with open(words.target, "w", encoding="utf-8", errors="surrogateescape", newline="\n") as file:
            file.write(deck.text())
    except Refused as refused:
        print(f"dialects: {refused}", file=sys.stderr)
        return 1
    except OSError as error:
        print(f"dialects: {error}", file=sys.stderr)
        return 2
    return 0


if __name__ == "__main__":
    sys.exit(main())
