#!/usr/bin/env python3
"""Writes crates/rows/src/convert/table.rt: texts of collectors, what `convert` tells of each, and its
status, worked out with exact fractions and nothing of the program.

    python3 tools/convert_texts.py > crates/rows/src/convert/table.rt
    (cd crates/rows && rt fmt)
"""
import re
from fractions import Fraction

from storage_numbers import word_and_units

BLANKS = " \t\r\v\f"
KEYWORDS = "CHART DIMENSION BEGIN SET END FLUSH DISABLE MOMENT QUERY".split()
ALGORITHMS = "incremental percentage-of-absolute-row percentage-of-incremental-row".split()


class Refusal(Exception):
    def __init__(self, number, more=""):
        self.number, self.more = number, more


def words_of(line):
    """The words of a line, and whether its last quote is closed."""
    words, at = [], 0
    while at < len(line):
        c = line[at]
        if c in BLANKS or c == "=":
            at += 1
        elif c in "'\"":
            end = line.find(c, at + 1)
            if end < 0:
                return words, False
            words.append(line[at + 1 : end])
            at = end + 1
        else:
            end = at
            while end < len(line) and line[end] not in BLANKS + "=":
                end += 1
            words.append(line[at:end])
            at = end
    return words, True


def first_word(line):
    """The keyword that a line begins with, if it does."""
    rest = line.lstrip(BLANKS + "=")
    if not rest:
        return None
    if rest[0] in "'\"":
        end = rest.find(rest[0], 1)
        return rest[1:end] if end > 0 and rest[1:end] in KEYWORDS else None
    word = re.split("[" + BLANKS + "=]", rest)[0]
    return word if word in KEYWORDS else None


def whole(word, least, most, decimals=False):
    pattern = r"[+-]?[0-9]+(\.[0-9]+)?" if decimals else r"[+-]?[0-9]+"
    if not re.fullmatch(pattern, word):
        raise Refusal(15)
    n = int(word.split(".")[0])
    if word[0] == "-" and word.split(".")[0] in ("-",):
        raise Refusal(15)
    if not least <= n <= most:
        raise Refusal(15)
    return n


def chart_id(word):
    dot = word.find(".")
    if dot < 1 or dot == len(word) - 1:
        raise Refusal(14)
    if len(word.encode()) > 200:
        raise Refusal(16)
    return word


def dimension_id(word):
    if word == "":
        raise Refusal(14)
    if len(word.encode()) > 200:
        raise Refusal(16)
    return word


def parse(line):
    """What a line says: its keyword and what follows, or None where it is skipped."""
    keyword = first_word(line)
    if keyword is None:
        return None
    words, closed = words_of(line)
    if not closed:
        raise Refusal(13)
    words = words[1:] + [""] * 12
    if keyword == "CHART":
        needed = len(words) - 12
        if needed < 4:
            raise Refusal(14)
        id = chart_id(words[0])
        if words[7] != "":
            whole(words[7], -(2**63), 2**63 - 1)
        every = whole(words[8], 0, 86400) if words[8] != "" else 0
        options = re.split("[" + BLANKS + ",]+", words[9])
        return keyword, (id, every or 1, "store_first" in options)
    if keyword == "DIMENSION":
        id = dimension_id(words[0])
        algorithm = words[2] if words[2] in ALGORITHMS else "absolute"
        m, d = (whole(w, -(2**31) + 1, 2**31 - 1) if w != "" else 0 for w in words[3:5])
        options = re.split("[" + BLANKS + ",]+", words[5])
        noreset = "noreset" in options or "nooverflow" in options
        return keyword, (id, algorithm, m or 1, d or 1, noreset)
    if keyword == "BEGIN":
        return keyword, chart_id(words[0])
    if keyword == "SET":
        id = dimension_id(words[0])
        value = whole(words[1], -(2**63), 2**63 - 1, decimals=True) if words[1] != "" else None
        return keyword, (id, value, words[2] == "A")
    if keyword == "MOMENT":
        if words[0] == "":
            raise Refusal(14)
        return keyword, whole(words[0], 1, 2**32 - 1)
    return keyword, None


def units_text(units):
    sign, size = ("-" if units < 0 else ""), abs(units)
    decimals = f"{size % 10**7:07d}".rstrip("0")
    return f"{sign}{size // 10**7}" + (f".{decimals}" if decimals else "")


class Agent:
    """All that was ever defined and collected: every question is answered by looking through it."""

    def __init__(self):
        self.charts, self.series = {}, []  # last definitions by id; (chart, dimension) by number
        self.dimensions = {}
        self.rows = []  # (moment, chart, {dimension: (value, anomalous)}), the latest last
        self.last = 0

    def before(self, chart, dimension, moment):
        for then, other, values in reversed(self.rows):
            if other == chart and dimension in values:
                return values[dimension][0], moment - then
        _, every, store_first = self.charts[chart]
        return (0, every) if store_first else None

    def points(self, moment, rows):
        told = {}
        for chart, values in rows.items():
            rises = {}
            for id, (value, _) in values.items():
                was = self.before(chart, id, moment)
                if was is not None:
                    rises[id] = (max(value - was[0], 0), value < was[0], was[1])
            total = sum(value for value, _ in values.values())
            total_rise = sum(r[0] for r in rises.values())
            for id, (value, anomalous) in values.items():
                _, algorithm, m, d, noreset = self.dimensions[chart, id]
                reset = False
                if algorithm == "absolute":
                    x = Fraction(value * m, d)
                elif algorithm == "percentage-of-absolute-row":
                    x = Fraction(100 * value, total) if total else Fraction(0)
                elif id not in rises:
                    continue
                else:
                    rise, fell, seconds = rises[id]
                    reset = fell and not noreset
                    if algorithm == "incremental":
                        x = Fraction(rise * m, d * seconds)
                    else:
                        x = Fraction(100 * rise, total_rise) if total_rise else Fraction(0)
                word, units = word_and_units(x, anomalous, reset)
                kept = not (word >> 24) & 1
                marks = (" A" if kept else "") + (" R" if (word >> 25) & 1 else "")
                told[self.series.index((chart, id))] = f"{moment} {chart} {id} {units_text(units)}{marks}\n"
        return "".join(told[n] for n in sorted(told))


def convert(text):
    """What is told of a text, and the status."""
    agent, told, skipped = Agent(), "", 0
    lines = text.split("\n")
    last_chart, block, values = None, None, {}
    charts, dimensions, rows = {}, {}, {}
    number = 0
    ended = False
    try:
        for line in lines[:-1]:
            number += 1
            if len(line.encode()) > 8192:
                raise Refusal(11)
            said = parse(line)
            keyword, what = said if said else (None, None)
            if keyword in ("CHART", "DIMENSION", "BEGIN", "MOMENT") and block is not None:
                raise Refusal(24)
            if keyword is None or keyword == "QUERY":
                skipped += 1
            elif keyword == "CHART":
                old = charts.get(what[0]) or agent.charts.get(what[0])
                if old and old[1] != what[1]:
                    raise Refusal(31)
                if not old and len(set(charts) | set(agent.charts)) >= 4096:
                    raise Refusal(32)
                charts[what[0]] = what
                last_chart = what[0]
            elif keyword == "DIMENSION":
                if last_chart is None:
                    raise Refusal(21)
                key, all_keys = (last_chart, what[0]), set(dimensions) | set(agent.dimensions)
                if key not in all_keys and (
                    sum(chart == last_chart for chart, _ in all_keys) >= 1024 or len(all_keys) >= 65536
                ):
                    raise Refusal(33)
                dimensions[key] = what
            elif keyword == "BEGIN":
                if what not in charts and what not in agent.charts:
                    raise Refusal(21)
                if what in rows:
                    raise Refusal(25)
                block, values = what, {}
            elif keyword == "SET":
                if block is None:
                    raise Refusal(23)
                id, value, anomalous = what
                if (block, id) not in dimensions and (block, id) not in agent.dimensions:
                    raise Refusal(22)
                values.pop(id, None)
                if value is not None:
                    values[id] = (value, anomalous)
            elif keyword == "END":
                if block is None:
                    raise Refusal(23)
                rows[block], block = values, None
            elif keyword == "FLUSH":
                block = None
            elif keyword == "DISABLE":
                ended = True
                break
            elif keyword == "MOMENT":
                if what <= agent.last:
                    raise Refusal(27, f" {agent.last}")
                for chart in rows:
                    if what % (charts.get(chart) or agent.charts[chart])[1]:
                        raise Refusal(26)
                agent.charts.update(charts)
                for key, definition in dimensions.items():
                    if key not in agent.dimensions:
                        agent.series.append(key)
                    agent.dimensions[key] = definition
                told += agent.points(what, rows)
                agent.rows += [(what, chart, row) for chart, row in rows.items()]
                agent.last = what
                charts, dimensions, rows = {}, {}, {}
        if not ended:
            if len(lines[-1].encode()) > 8192:
                number += 1
                raise Refusal(11)
            if block is not None or charts or dimensions or rows or lines[-1]:
                raise Refusal(28)
    except Refusal as why:
        word = "LIMIT" if why.number in (32, 33) else "REFUSED"
        return told + f"{word} {number} {why.number}{why.more}\n", f"Status::{word.title()}({number}, {why.number})"
    return told + (f"SKIPPED {skipped}\n" if skipped else ""), "Status::Ok"


def chart(*dimensions, id="a.b", every="", options=""):
    tail = f" f c line 1 {every or 1} '{options}'" if every or options else ""
    return f"CHART {id} n t u{tail}\n" + "".join(f"DIMENSION {d}\n" for d in dimensions)


def row(moment, *sets, id="a.b"):
    return block(*sets, id=id) + f"MOMENT {moment}\n"


def block(*sets, id="a.b"):
    return f"BEGIN {id}\n" + "".join(f"SET {s}\n" for s in sets) + "END\n"


MOST, LEAST = 2**63 - 1, -(2**63)

TEXTS = [
    ("one point", "CHART test.one '' 'One' 'units'\nDIMENSION a\nBEGIN test.one\nSET a = 42\nEND\nMOMENT 60\n"),
    ("no text", ""),
    ("carriage returns are blanks", "CHART a.b n t u\r\nDIMENSION c\r\nBEGIN a.b\r\nSET c = 1\r\nEND\r\nMOMENT 2\r\n"),
    ("a beat's points by the numbers of their series", chart("c", "d") + row(9, "d = 2", "c = 1")),
    ("a dimension that is not set", chart("c", "d") + row(9, "d = 2")),
    ("the last value counts", chart("c") + row(9, "c = 1", "c = -5")),
    ("a value taken back", chart("c", "d") + row(9, "c = 1", "d = 2", "c =")),
    ("no value outlives its beat", chart("c") + row(9, "c = 1") + row(10) + "MOMENT 12\n" + row(13, "c = 3")),
    ("an empty beat", "MOMENT 1\nMOMENT 2\n"),
    ("decimals are dropped", chart("c") + row(1, "c=1500.7") + row(2, "c = -0.9")),
    ("a rise and a reset", chart("a a incremental") + row(1, "a = 100") + row(2, "a = 160") + row(3, "a = 10")),
    ("a rise over a gap between rows", chart("a a incremental") + row(1, "a = 100") + "MOMENT 3\n" + row(4, "a = 160")),
    ("a rise from the last row that sets the dimension", chart("a a incremental", "b") + row(1, "a = 100", "b = 1") + row(2, "b = 2") + row(4, "a = 160", "b = 3")),
    ("a rise by factors", chart("a a incremental 8 1000") + row(10, "a = 0") + row(13, "a = 1000")),
    ("a fall that is no reset", chart("a a incremental 1 1 noreset") + row(1, "a = 5") + row(2, "a = 3")),
    ("a marked reset", chart("a a incremental") + row(1, "a = 5") + row(2, "a = 3 A") + row(3, "a = 3 A")),
    ("a first value that is stored", chart("a a incremental", every=5, options="store_first") + row(10, "a = 50") + row(20, "a = 70")),
    ("first values that are stored, in percent", chart("a a percentage-of-incremental-row", "b b percentage-of-incremental-row", options="x,store_first") + row(10, "a = 1", "b = 3")),
    ("shares of a row, and of 0", chart("a a percentage-of-absolute-row", "b b percentage-of-absolute-row") + row(1, "a = 1", "b = 2") + row(2, "a = 0", "b = 0")),
    ("shares with a part below 0", chart("a a percentage-of-absolute-row", "b b percentage-of-absolute-row") + row(1, "a = -1", "b = 3") + row(2, "a = 5", "b = -5")),
    ("shares take the whole row, hidden or not", chart("a a percentage-of-absolute-row", "b '' absolute 1 1 hidden", "c") + row(1, "a = 1", "b = 2", "c = 1")),
    ("shares of those that are set", chart("a a percentage-of-absolute-row", "b") + row(1, "a = 1")),
    ("shares of rises", chart("a a percentage-of-incremental-row", "b b percentage-of-incremental-row") + row(1, "a = 0", "b = 0") + row(5, "a = 10", "b = 30") + row(6, "a = 5", "b = 31")),
    ("shares of no rise", chart("a a percentage-of-incremental-row", "b b percentage-of-incremental-row") + row(1, "a = 4", "b = 4") + row(2, "a = 4", "b = 3")),
    ("a rise counts in the total of a dimension that is as it is", chart("a a percentage-of-incremental-row", "b") + row(1, "a = 0", "b = 0") + row(2, "a = 10", "b = 30")),
    ("several charts in a beat", chart("c") + chart("c", "d", id="e.f") + block("d = 4", "c = 3", id="e.f") + row(7, "c = 1")),
    ("dimensions of one id in two charts", chart("c a incremental") + chart("c a incremental", id="e.f") + block("c = 1") + row(1, "c = 10", id="e.f") + block("c = 3") + row(2, "c = 17", id="e.f")),
    ("an algorithm redefined in mid-text", chart("a") + row(1, "a = 100") + chart("a a incremental") + row(2, "a = 160") + chart("a a absolute") + row(3, "a = 7")),
    ("factors redefined in mid-text", chart("a a absolute 1 3") + row(1, "a = 1") + chart("a a absolute 10 4") + row(2, "a = 1")),
    ("the last definition of a beat holds for all its rows", chart("a") + block("a = 12") + chart("a a absolute 1 5") + "MOMENT 1\n"),
    ("a redefinition keeps the number", chart("a", "b") + row(1, "a = 1", "b = 2") + chart("b '' absolute 2", "a") + row(2, "a = 1", "b = 2")),
    ("a dimension added later", chart("b") + row(1, "b = 1") + chart("a") + row(2, "a = 5", "b = 2")),
    ("values below 0", chart("a a absolute 1 1000", "b a absolute -3", "c a absolute 1 -2") + row(1, "a = -2500", "b = 5", "c = 5")),
    ("the limits of values", chart("a", "b", "c a incremental") + row(1, f"a = {MOST}", f"b = {LEAST}", f"c = {LEAST}") + row(2, f"c = {MOST}")),
    ("the limits of values times those of factors", chart("a a absolute 2147483647", "b a absolute -2147483647 2147483647") + row(1, f"a = {MOST}", f"b = {LEAST}")),
    ("thirds", chart("a a absolute 1 3", "b a absolute 2 3", "c a absolute -1 3") + row(1, "a = 1", "b = 1", "c = 1")),
    ("the smallest step, and below it", chart("a a absolute 1 10000000", "b a absolute 1 100000000", "c a absolute 1 20000000", "d a absolute 3 20000000") + row(1, "a = 1", "b = 1", "c = 1", "d = 1")),
    ("the greatest mantissa, and one past it", chart("a", "b") + row(1, "a = 16777215", "b = 16777216")),
    ("anomalous values, and an anomalous 0", chart("a", "b", "c") + row(1, "a = 7 A", "b = 0 A", "c = 7 a")),
    ("a word past the mark", chart("a") + row(1, "a = 7 A x")),
    ("factors of 0 count as 1", chart("a a absolute 0 0") + row(1, "a = 7")),
    ("unknown words are the defaults", chart("a a sometimes 1 1 often") + row(1, "a = 7")),
    ("a name is not told", chart("a 'the name'") + row(1, "a = 7")),
    ("a dropped block gives no point and no last row", chart("a a incremental") + row(1, "a = 1") + "BEGIN a.b\nSET a = 100\nFLUSH\n" + row(2, "a = 5")),
    ("lines that say nothing", "\n = \t\nhello 'x\nchart a.b n t u\nCLABEL a b\n" + chart("a") + "'\n" + row(1, "a = 1") + "# the end\n"),
    ("questions count as skipped", "QUERY a.b 0 60 60 sum\n" + chart("a") + "BEGIN a.b\nQUERY\nSET a = 1\nEND\nMOMENT 1\n"),
    ("a text that says DISABLE", chart("a") + "x\n" + row(1, "a = 1") + block("a = 2") + "DISABLE\nMOMENT 2\n"),
    ("DISABLE in a block, and bytes behind", chart("a") + row(1, "a = 1") + "BEGIN a.b\nDISABLE\nEND\nMOM"),
    ("a collector's text", "CHART netdata.plugin_example '' \"Example plugin's run time\" \"milliseconds\" \"example plugin\" netdata.plugin_example area 110000 1 \"obsolete\" example run\nCLABEL \"_collect_plugin\" \"example\" 1\nCLABEL_COMMIT\nDIMENSION run_time '' absolute 1 1000\nBEGIN netdata.plugin_example 1000123\nSET run_time = -2500\nEND\nMOMENT 1\nCHART netdata.plugin_example '' \"Example plugin's run time\" \"milliseconds\" \"example plugin\" netdata.plugin_example area 110000 1 \"obsolete\" example run\nBEGIN netdata.plugin_example\nSET run_time=1500.7\nEND\nMOMENT 2\n"),
    # Refusals, after what the beats before them tell.
    ("a line that is in no form", chart("c") + row(9, "c = 1") + "SET\n"),
    ("an open quote", "CHART a.b 'n t u\n"),
    ("a word that is missing", "CHART a.b n t\n"),
    ("an id without a part", "CHART .b n t u\n"),
    ("an id without its other part", "CHART a. n t u\n"),
    ("a number that is none", chart("c") + "BEGIN a.b\nSET c = 5.\n"),
    ("a number out of its limits", f"MOMENT {2**32}\n"),
    ("moment 0", "MOMENT 0\n"),
    ("no chart", "DIMENSION c\n"),
    ("no chart to begin", chart() + "BEGIN a.c\n"),
    ("no dimension", chart("c") + "BEGIN a.b\nSET d = 1\n"),
    ("no block to set in", chart("c") + "SET c = 1\n"),
    ("no block to end", "END\n"),
    ("a block is open at a MOMENT", chart("c") + "BEGIN a.b\nMOMENT 9\n"),
    ("a block is open at a BEGIN", chart("c") + "BEGIN a.b\nBEGIN a.b\n"),
    ("a second block", chart("c") + block() + "BEGIN a.b\n"),
    ("a second block after one that was dropped", chart("c") + "BEGIN a.b\nFLUSH\n" + block() + "BEGIN a.b\n"),
    ("off the grid", chart("a", id="t.c", every=5) + row(5, "a = 1", id="t.c") + row(7, "a = 2", id="t.c")),
    ("off the grid of a chart without a row is no matter", chart("a", every=5) + chart("a", id="e.f") + row(7, "a = 2", id="e.f")),
    ("a moment that is not above the last", chart("c") + row(9, "c = 1") + row(9, "c = 2")),
    ("a moment before the last", "MOMENT 4294967295\nMOMENT 3\n"),
    ("another update_every", chart(every=5) + "MOMENT 1\n" + chart(every=1)),
    ("another update_every in one beat", chart(every=5) + chart()),
    ("the text ends in a definition", "CHART a.b n t u\n"),
    ("the text ends in a line", "MOMENT 1\nMOMENT 2"),
    ("the text ends in its first line", "x"),
    ("the text ends in a block", chart("c") + row(9, "c = 1") + "BEGIN a.b\n"),
    ("the text ends before the beat is closed", chart("c") + block("c = 1")),
    ("nothing is told of skipped lines where a text is refused", "x\n" + chart("c") + row(9, "c = 1") + "END\n"),
]


def quoted(text):
    return '"' + text.replace("\\", "\\\\").replace('"', '\\"').replace("\n", "\\n").replace("\r", "\\r").replace("\t", "\\t") + '"'


def main():
    print("// Written by tools/convert_texts.py.")
    print()
    print("use host_model::Status;")
    told = [(title, text, *convert(text)) for title, text in TEXTS]
    read = [row for row in told if row[3] == "Status::Ok"]
    refused = [row for row in told if row[3] != "Status::Ok"]
    print()
    print("/// What a text that is read to its end shows, the text, and what is told of it.")
    print(f"pub static READ: [(&str, &str, &str); {len(read)}] = [")
    for title, text, output, _ in read:
        print(f"    ({quoted(title)}, {quoted(text)}, {quoted(output)}),")
    print("];")
    print()
    print("/// Why a text is refused, the text, what is told of it, and the status.")
    print(f"pub static REFUSED: [(&str, &str, &str, Status); {len(refused)}] = [")
    for title, text, output, status in refused:
        print(f"    ({quoted(title)}, {quoted(text)}, {quoted(output)}, {status}),")
    print("];")


if __name__ == "__main__":
    main()
