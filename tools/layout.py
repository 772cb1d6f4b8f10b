#!/usr/bin/env python3
"""Reads and writes the files of a database by docs/FORMATS.md alone, with nothing of the program.

Usage: tools/layout.py FOLDER          prints what the files nda.0 to nda.6 of a folder say
       tools/layout.py --check NDA     compares the files that this program makes with those of the document

--check makes small databases in temporary folders by `new`, `run`, `health` and `receive`, whose child it is itself. It
writes the files of each by the document, from the same settings and beats, and compares them after each command, and what
was printed. It prints what differs, and where; nothing where all is well.
"""
import os
import socket
import subprocess
import sys
import tempfile
import time
from fractions import Fraction

WIDTHS = (1, 60, 3600)
TIERS = range(3)
JOURNAL_LIMIT, JOURNAL_DUE = 2**26, 2**24
MOST_SLOTS, MOST_RECORDS, MOST_GAP = 1024, 73, 6


class Bad(Exception):
    """The bytes are not of the form."""


def want(is_so, what):
    if not is_so:
        raise Bad(what)


# ---- fields


class Bytes:
    """What is left to be read of some bytes."""

    def __init__(self, content):
        self.content, self.place = content, 0

    def take(self, count):
        want(self.place + count <= len(self.content), f"too few bytes at {self.place}")
        self.place += count
        return self.content[self.place - count : self.place]


class Number:
    def __init__(self, bits, signed=False):
        self.size, self.signed = bits // 8, signed

    def write(self, value):
        return value.to_bytes(self.size, "little", signed=self.signed)

    def read(self, source):
        return int.from_bytes(source.take(self.size), "little", signed=self.signed)


BYTE, U16, U32, U64 = Number(8), Number(16), Number(32), Number(64)
I32, I64, I128 = Number(32, True), Number(64, True), Number(128, True)


class Flag:
    def write(self, value):
        return BYTE.write(1 if value else 0)

    def read(self, source):
        value = BYTE.read(source)
        want(value <= 1, "a flag above 1")
        return value == 1


class Counted:
    """Bytes or UTF-8, with their length before them."""

    def __init__(self, count, is_text):
        self.count, self.is_text = count, is_text

    def write(self, value):
        written = value.encode() if self.is_text else bytes(value)
        return self.count.write(len(written)) + written

    def read(self, source):
        content = bytes(source.take(self.count.read(source)))
        try:
            return content.decode() if self.is_text else content
        except UnicodeDecodeError:
            raise Bad("a text that is not UTF-8") from None


FLAG, TEXT, CONTENT = Flag(), Counted(U16, True), Counted(U32, False)


class Each:
    """So many items of one kind, with no count."""

    def __init__(self, count, item):
        self.count, self.item = count, item

    def write(self, values):
        assert len(values) == self.count
        return b"".join(map(self.item.write, values))

    def read(self, source):
        return [self.item.read(source) for _ in range(self.count)]


class ListOf:
    def __init__(self, item):
        self.item = item

    def write(self, values):
        return U32.write(len(values)) + Each(len(values), self.item).write(values)

    def read(self, source):
        return Each(U32.read(source), self.item).read(source)


class Fields:
    """Fields with names, one after the other: a dict."""

    def __init__(self, **fields):
        self.fields = fields

    def write(self, value):
        assert value.keys() == self.fields.keys(), (value.keys(), self.fields.keys())
        return b"".join(field.write(value[name]) for name, field in self.fields.items())

    def read(self, source):
        return {name: field.read(source) for name, field in self.fields.items()}


class Maybe:
    """A flag and fields, which are 0 where the flag is: None then."""

    def __init__(self, **fields):
        self.item = Fields(**fields)
        self.nothing = dict.fromkeys(fields, 0)

    def write(self, value):
        return FLAG.write(value is not None) + self.item.write(self.nothing if value is None else value)

    def read(self, source):
        is_there, value = FLAG.read(source), self.item.read(source)
        want(is_there or value == self.nothing, "a number behind a flag of 0")
        return value if is_there else None


def whole(form, content):
    """What all of these bytes say."""
    source = Bytes(content)
    value = form.read(source)
    want(source.place == len(content), "bytes behind the end")
    return value


# ---- entries

CHART = Fields(number=U32, id=TEXT, name=TEXT, title=TEXT, units=TEXT, family=TEXT, context=TEXT, kind=BYTE, priority=I64,
               update_every=U32, store_first=FLAG)
DIMENSION = Fields(series=U32, chart=U32, id=TEXT, name=TEXT, algorithm=BYTE, multiplier=I32, divisor=I32, marks=BYTE)
ROW = Fields(chart=U32, values=ListOf(Fields(series=U32, value=I64, anomalous=FLAG)))
COPIED_CHART = Fields(number=U32, id=TEXT, context=TEXT, update_every=U32)
COPIED_DIMENSION = Fields(series=U32, chart=U32, id=TEXT, hidden=FLAG)
WORD = Fields(series=U32, word=U32)
ENTRIES = {
    1: Fields(moment=U32, charts=ListOf(CHART), dimensions=ListOf(DIMENSION), rows=ListOf(ROW)),
    2: Fields(child=U64, moment=U32, charts=ListOf(COPIED_CHART), dimensions=ListOf(COPIED_DIMENSION), words=ListOf(WORD)),
    3: Fields(text=CONTENT),
    4: Fields(child=U64, above=U32, upto=U32),
}


class Entry:
    """An entry as its kind and its fields."""

    def write(self, value):
        kind, fields = value
        return BYTE.write(kind) + ENTRIES[kind].write(fields)

    def read(self, source):
        kind = BYTE.read(source)
        want(kind in ENTRIES, f"an entry of the kind {kind}")
        return kind, ENTRIES[kind].read(source)


ENTRY = Entry()
# The bodies of frames, without the kinds.
FRAMES = {
    "Hello": (1, Fields(child=U64)),
    "Ask": (2, Fields(child=U64, last=U32)),
    "Data": (3, Fields(**{"child": U64, "prev": U32, "from": U32, "upto": U32, "floor": U32},
                       charts=ListOf(Fields(id=TEXT, context=TEXT, update_every=U32)),
                       dimensions=ListOf(Fields(chart=U32, id=TEXT, hidden=FLAG)),
                       beats=ListOf(Fields(moment=U32, words=ListOf(Fields(dimension=U32, word=U32)))))),
    "Have": (4, Fields(last=U32)),
    "Bye": (5, Fields(why=BYTE)),
}


def write_frame(name, **fields):
    kind, form = FRAMES[name]
    body = BYTE.write(kind) + form.write(fields)
    return U32.write(len(body)) + body


BEAT = Fields(moment=U32, points=ListOf(Fields(series=U32, step=U32, word=U32)), note=CONTENT)

# ---- pages and extents

RECORD = Fields(minimum=I128, maximum=I128, sum=I128, count=U32, anomalous=U32)
PAGE_FORMS = tuple(Fields(series=U32, first=U32, step=U32, items=ListOf(item)) for item in (U32, RECORD, RECORD))
ITEMS = (U32, RECORD, RECORD)
ITEM_SIZES = (4, 56, 56)
PAGE_ENTRY = Fields(series=U32, first=U32, step=U32, count=U32, place=U64)


def end_of(page):
    """The moment of the last item."""
    return page["first"] + (len(page["items"]) - 1) * page["step"]


def check_pages(tier, pages):
    before = None
    for page in pages:
        items = page["items"]
        want(1 <= len(items) <= (MOST_RECORDS if tier else MOST_SLOTS), "a page of too few or too many items")
        want(page["step"] >= 1 and end_of(page) < 2**32, "a page that does not end in time")
        if tier == 0:
            is_word = [word != 0 for word in items]
            want(is_word[0] and is_word[-1], "an empty slot at an end")
            want(all(any(is_word[at : at + MOST_GAP + 1]) for at in range(len(items))), "seven empty slots in a row")
        else:
            want(page["step"] == WIDTHS[tier] and page["first"] % WIDTHS[tier] == 0, "a record that is of no bucket")
        if before is not None:
            key, last = (page["series"], page["first"]), (before["series"], end_of(before))
            want(key > last, "pages out of their order")
        before = page


def write_extent(tier, pages):
    place = 24 + 24 * len(pages)
    directory, items = b"", b""
    for page in pages:
        head = {name: page[name] for name in ("series", "first", "step")}
        directory += PAGE_ENTRY.write({**head, "count": len(page["items"]), "place": place + len(items)})
        items += Each(len(page["items"]), ITEMS[tier]).write(page["items"])
    size = place + len(items)
    return b"NDAEXT01" + U32.write(tier) + U32.write(len(pages)) + U64.write(size) + directory + items


def read_extent(tier, content):
    source = Bytes(content)
    want(source.take(8) == b"NDAEXT01", "no extent")
    want(U32.read(source) == tier, "an extent of another tier")
    count = U32.read(source)
    want(U64.read(source) == len(content), "an extent of another length")
    pages = []
    for entry in Each(count, PAGE_ENTRY).read(source):
        items = Bytes(content)
        items.place = entry["place"]
        head = {name: entry[name] for name in ("series", "first", "step")}
        pages.append({**head, "items": Each(entry["count"], ITEMS[tier]).read(items)})
    check_pages(tier, pages)
    want(write_extent(tier, pages) == content, "items that are not in the order of the directory")
    return pages


def slot_size(tier, full):
    return 24 + (full + 65536) * (24 + ITEM_SIZES[tier])


# ---- journals and checkpoints


def empty_journal(generation):
    return b"NDAJRNL1" + U64.write(generation) + b"\0"


def with_record(journal, record):
    """The journal, whose last gate is closed, with a record more."""
    want(len(record) <= JOURNAL_LIMIT, "a record that is too long")
    return journal[:-1] + b"\1" + U32.write(len(record)) + record + b"\0"


def read_journal(content):
    """The generation and the records."""
    source = Bytes(content)
    want(source.take(8) == b"NDAJRNL1", "no journal")
    generation, records = U64.read(source), []
    while BYTE.read(source) == 1:
        size = U32.read(source)
        want(size <= JOURNAL_LIMIT, "a record that is too long")
        records.append(bytes(source.take(size)))
    return generation, records


def write_slot(number, body):
    return b"\1" + U64.write(number) + U64.write(len(body)) + body


def read_slot(content, parity):
    """The number and the body of a file that is open, or None."""
    if len(content) < 17 or content[0] != 1 or content[1] % 2 != parity:
        return None
    source = Bytes(content)
    source.take(1)
    number, size = U64.read(source), U64.read(source)
    return number, bytes(source.take(size))


# ---- what a checkpoint has

QUOTA = Fields(full=U32, kept=U32)
EXTENT = Fields(slot=U32, serial=U64, sealed_at=U32, size=U64, beats=U64)
OPEN_RECORD = Fields(series=U32, bucket=U32, record=RECORD)
BODY = Fields(version=BYTE, id=U64, quotas=Each(3, QUOTA), count=U64, last=U32, floors=Each(3, U32), below=U64,
              sealed=Each(3, U64), extents=Each(3, ListOf(EXTENT)), open_records=Each(2, ListOf(OPEN_RECORD)),
              slot_pages=ListOf(PAGE_FORMS[0]), record_pages=Each(2, ListOf(PAGE_FORMS[1])), side=CONTENT)


def check_body(body):
    """The rules of a body, beside those of its fields."""
    want(body["version"] == 1, "a body of another version")
    for quota, extents in zip(body["quotas"], body["extents"]):
        slots = [extent["slot"] for extent in extents]
        want(1 <= quota["full"] <= 262144 and 1 <= quota["kept"] <= 1024, "settings past their limits")
        want(len(slots) <= quota["kept"] and len(set(slots)) == len(slots), "too many extents, or a slot twice")
        want(all(slot <= quota["kept"] for slot in slots), "a slot that is too high")
    for records in body["open_records"]:
        series = [record["series"] for record in records]
        want(series == sorted(set(series)) and all(number < 65536 for number in series), "open records out of their order")
    for tier, pages in enumerate([body["slot_pages"], *body["record_pages"]]):
        check_pages(tier, pages)
        count = sum(len([item for item in page["items"] if item != 0]) for page in pages)
        want(count < body["quotas"][tier]["full"], "an open segment that is full")


class Value:
    """A value of an alarm: nan, inf, -inf, or a number of ten-millionths."""

    NAMES = ("nan", "inf", "-inf")

    def write(self, value):
        if value in self.NAMES:
            return BYTE.write(self.NAMES.index(value))
        return BYTE.write(3) + I128.write(value)

    def read(self, source):
        kind = BYTE.read(source)
        want(kind <= 3, "a value of no kind")
        return self.NAMES[kind] if kind < 3 else I128.read(source)


VALUE = Value()
STATE = Fields(alarm=TEXT, chart=U32, status=BYTE, value=VALUE, delay=Maybe(up=U32, down=U32, due=U32))
EVENT = Fields(id=U64, moment=U32, chart=TEXT, alarm=TEXT, old=BYTE, new=BYTE, value=VALUE, due=Maybe(moment=U32))
ALARMS = Fields(text=CONTENT, states=ListOf(STATE), before=U64, events=ListOf(EVENT))


class Side:
    """What the agent keeps: behind the definitions there are as many things as there are charts and dimensions."""

    HEAD = Fields(role=BYTE, child=U64, charts=ListOf(CHART), dimensions=ListOf(DIMENSION))

    def forms(self, value):
        charts, series = len(value["charts"]), len(value["dimensions"])
        return self.HEAD, Fields(moments=Each(charts, U32), last_rows=Each(series, Maybe(moment=U32, value=I64)),
                                 last_points=Each(series, Maybe(moment=U32, word=U32)), alarms=ALARMS,
                                 gaps=ListOf(Fields(above=U32, upto=U32)))

    def write(self, value):
        return b"".join(form.write({name: value[name] for name in form.fields}) for form in self.forms(value))

    def read(self, source):
        head = self.HEAD.read(source)
        return {**head, **self.forms(head)[1].read(source)}


SIDE = Side()

# ---- storage numbers

MOST = 16_777_215
ONE = 10**7
# (multiplies, by hundreds, exponent) and the size of a step, the smallest first
STEPS = (
    [((0, 0, e), Fraction(1, 10**e)) for e in range(7, -1, -1)]
    + [((1, 0, e), Fraction(10**e)) for e in range(1, 8)]
    + [((1, 1, e), Fraction(100**e)) for e in range(4, 8)]
)


def pack(value, anomalous=False, reset=False):
    """The storage number of a fraction and two marks."""
    for shown, size in STEPS:
        mantissa = round(abs(value) / size)
        if mantissa <= MOST:
            break
    else:
        mantissa = MOST
    if mantissa == 0:
        return 1 << 26 if anomalous and not reset else reset << 25 | (not anomalous) << 24
    multiplies, hundreds, exponent = shown
    return ((value < 0) << 31 | multiplies << 30 | exponent << 27 | hundreds << 26 | reset << 25 | (not anomalous) << 24
            | mantissa)


def is_anomalous(word):
    return not word >> 24 & 1


def units_of(word):
    """What a storage number is worth, in ten-millionths."""
    if word & MOST == 0:
        return 0
    shown = (word >> 30 & 1, word >> 26 & 1, word >> 27 & 7)
    units = (word & MOST) * dict(STEPS)[shown] * ONE
    assert units.denominator == 1
    return -int(units) if word >> 31 else int(units)


# ---- the files that some beats leave


def joined(record, value, anomalous):
    """A record with a further value; of None that of the value alone."""
    if record is None:
        record = {"minimum": value, "maximum": value, "sum": 0, "count": 0, "anomalous": 0}
    return {"minimum": min(record["minimum"], value), "maximum": max(record["maximum"], value),
            "sum": record["sum"] + value, "count": record["count"] + 1, "anomalous": record["anomalous"] + anomalous}


def pages_of(tier, items):
    """Items (series, moment, step, item) cut into pages."""
    pages = []
    most, gap = (MOST_RECORDS, 0) if tier else (MOST_SLOTS, MOST_GAP)
    for series, moment, step, item in sorted(items, key=lambda each: each[:2]):
        page = pages[-1] if pages else None
        if page and (page["series"], page["step"]) == (series, step):
            empty, rest = divmod(moment - end_of(page) - step, step)
            if rest == 0 and 0 <= empty <= gap and len(page["items"]) + empty < most:
                page["items"] += [0] * empty + [item]
                continue
        pages.append({"series": series, "first": moment, "step": step, "items": [item]})
    return pages


class Tier:
    """What a tier keeps of items: those since the last cut, and the segments (when each was sealed, its items, its number,
    how many beats had points up to then) that are kept."""

    def __init__(self, tier, full, kept):
        self.tier, self.full, self.kept = tier, full, kept
        self.since, self.segments, self.sealed, self.floor, self.below = [], [], 0, 0, 0

    def end_beat(self, moment, beats):
        if len(self.since) < self.full:
            return
        self.segments.append({"sealed_at": moment, "items": self.since, "serial": self.sealed, "beats": beats})
        self.since, self.sealed = [], self.sealed + 1
        if len(self.segments) > self.kept:
            gone = self.segments.pop(0)
            width = WIDTHS[self.tier]
            self.floor = gone["sealed_at"] // width * width if self.tier else gone["sealed_at"] + 1
            self.below = gone["beats"]


# What stands beside each chart and each dimension, and that of a new one.
BESIDE = {"charts": {"moments": 0}, "dimensions": {"last_rows": None, "last_points": None}}


class Database:
    """The files of a database, by what was given to it."""

    def __init__(self, number, quotas):
        self.id, self.tiers = number, [Tier(tier, *quota) for tier, quota in enumerate(quotas)]
        self.files = [b""] * 7
        self.count = self.last = self.beats = 0
        self.open_records = {1: {}, 2: {}}
        self.extents = [[], [], []]
        self.side = {"role": 0, "child": 0, "charts": [], "dimensions": [], "moments": [], "last_rows": [], "last_points": [],
                     "alarms": {"text": b"", "states": [], "before": 0, "events": []}, "gaps": []}
        self.switch(0)

    def switch(self, number):
        self.number = number
        gaps = self.side["gaps"]
        while gaps and gaps[0]["upto"] < self.tiers[0].floor:
            del gaps[0]
        self.files[2 + number % 2] = empty_journal(number)
        body = {
            "version": 1, "id": self.id, "quotas": [{"full": tier.full, "kept": tier.kept} for tier in self.tiers],
            "count": self.count, "last": self.last, "floors": [tier.floor for tier in self.tiers],
            "below": self.tiers[0].below, "sealed": [tier.sealed for tier in self.tiers], "extents": self.extents,
            "open_records": [[{"series": series, "bucket": self.last // WIDTHS[tier] * WIDTHS[tier], "record": record}
                              for series, record in sorted(self.open_records[tier].items())] for tier in (1, 2)],
            "slot_pages": pages_of(0, self.tiers[0].since),
            "record_pages": [pages_of(tier, self.tiers[tier].since) for tier in (1, 2)],
            "side": SIDE.write(self.side),
        }
        self.files[number % 2] = write_slot(number, BODY.write(body))
        self.is_due = False

    def checkpoint(self):
        """Writes the segments that were sealed since the last one, and then the next one."""
        for tier in self.tiers:
            named = self.extents[tier.tier]
            by_serial = {extent["serial"]: extent for extent in named}
            for segment in tier.segments:
                if segment["serial"] not in by_serial:
                    by_serial[segment["serial"]] = self.write_segment(tier, segment, named)
            self.extents[tier.tier] = [by_serial[segment["serial"]] for segment in tier.segments]
        self.switch(self.number + 1)

    def write_segment(self, tier, segment, named):
        """Into the first slot that no kept extent has."""
        slot = min(set(range(len(named) + 1)) - {extent["slot"] for extent in named})
        content = write_extent(tier.tier, pages_of(tier.tier, segment["items"]))
        start = slot * slot_size(tier.tier, tier.full)
        file = self.files[4 + tier.tier].ljust(start, b"\0")
        self.files[4 + tier.tier] = file[:start] + content + file[start + len(content) :]
        return {"slot": slot, "serial": segment["serial"], "sealed_at": segment["sealed_at"], "size": len(content),
                "beats": 0 if tier.tier else segment["beats"]}

    def store(self, moment, points, entry):
        """A beat: its moment, its points (series, step, word), and its entry."""
        if self.is_due:
            self.checkpoint()
        points = sorted(points)
        record = BEAT.write({"moment": moment, "points": [dict(zip(("series", "step", "word"), p)) for p in points],
                             "note": ENTRY.write(entry)})
        place = 2 + self.number % 2
        self.files[place] = with_record(self.files[place], record)
        self.count += 1
        if moment:
            self.take(moment, points)
        self.is_due |= len(self.files[place]) >= JOURNAL_DUE

    def define(self, kind, definitions, full=dict):
        """The side takes charts or dimensions, each of which has the place of its number."""
        known = self.side[kind]
        for each in definitions:
            number = each["number" if kind == "charts" else "series"]
            if number == len(known):
                known.append(None)
                for other, nothing in BESIDE[kind].items():
                    self.side[other].append(nothing)
            known[number] = full(each)

    def take(self, moment, points):
        """The tiers take the points of a beat."""
        sealed = [tier.sealed for tier in self.tiers]
        self.beats += len(points) > 0
        self.tiers[0].since += [(series, moment, step, word) for series, step, word in points]
        for tier, width in enumerate(WIDTHS[1:], 1):
            start = self.last // width * width
            if start < moment // width * width:
                closed = sorted(self.open_records[tier].items())
                self.tiers[tier].since += [(series, start, width, record) for series, record in closed]
                self.open_records[tier] = {}
            records = self.open_records[tier]
            for series, _, word in points:
                records[series] = joined(records.get(series), units_of(word), is_anomalous(word))
        for tier in self.tiers:
            tier.end_beat(moment, self.beats)
        self.last = moment
        self.is_due |= sealed != [tier.sealed for tier in self.tiers]


class Collecting(Database):
    """A database that collects: of definitions and rows by their numbers."""

    def beat(self, beat):
        moment, rows = beat["moment"], beat["rows"]
        if self.is_due:
            self.checkpoint()
        side = self.side
        charts = sorted((each for each in beat["definitions"] if "number" in each), key=lambda each: each["number"])
        dimensions = sorted((each for each in beat["definitions"] if "series" in each), key=lambda each: each["series"])
        self.define("charts", charts)
        self.define("dimensions", dimensions)
        points = [point for chart, values in rows.items() for point in self.points_of(moment, chart, values)]
        listed = [{"chart": chart, "values": [{"series": series, "value": value, "anomalous": anomalous}
                                              for series, (value, anomalous) in sorted(values.items())]}
                  for chart, values in sorted(rows.items())]
        self.store(moment, points, (1, {"moment": moment, "charts": charts, "dimensions": dimensions, "rows": listed}))
        side["role"] = 1
        for chart, values in rows.items():
            side["moments"][chart] = moment
            for series, (value, _) in values.items():
                side["last_rows"][series] = {"moment": moment, "value": value}
        for series, _, word in points:
            side["last_points"][series] = {"moment": moment, "word": word}
        return self.follow(beat, moment)

    def health(self, health):
        self.store(0, [], (3, {"text": health["text"].encode()}))
        self.side["alarms"]["text"] = health["text"].encode()
        return self.follow(health, self.last)

    def follow(self, given, moment):
        """The alarms after a beat or a configuration, and the lines that are printed."""
        alarms, lines = self.side["alarms"], [f"STORED {self.count}"]
        if given["states"] is not None:
            alarms["states"] = given["states"]
        for said in given["events"]:
            alarms["events"].append({"id": len(alarms["events"]) + 1, "moment": moment, **said})
            lines.append(event_line(alarms["events"][-1]))
        return lines

    def points_of(self, moment, number, values):
        """The points of a row: series, step, word."""
        chart, dimensions = self.side["charts"][number], self.side["dimensions"]
        rises = {series: self.rise_of(moment, chart, series, value) for series, (value, _) in values.items()}
        total = sum(value for value, _ in values.values())
        total_rise = sum(rise for rise, _, _ in filter(None, rises.values()))
        for series, (value, anomalous) in values.items():
            dimension = dimensions[series]
            factor, reset = Fraction(dimension["multiplier"], dimension["divisor"]), False
            if dimension["algorithm"] in (1, 3):
                if rises[series] is None:
                    continue
                rise, seconds, reset = rises[series]
            if dimension["algorithm"] == 0:
                worth = value * factor
            elif dimension["algorithm"] == 1:
                worth = rise * factor / seconds
            elif dimension["algorithm"] == 2:
                worth = Fraction(100 * value, total) if total else Fraction(0)
            else:
                worth = Fraction(100 * rise, total_rise) if total_rise else Fraction(0)
            yield series, chart["update_every"], pack(worth, anomalous, reset)

    def rise_of(self, moment, chart, series, value):
        """The rise of a value, in how many seconds, and whether it is a reset."""
        last = self.side["last_rows"][series]
        if last is None and not chart["store_first"]:
            return None
        rise = value - (last["value"] if last else 0)
        is_reset = rise < 0 and not self.side["dimensions"][series]["marks"] & 2
        return max(rise, 0), moment - last["moment"] if last else chart["update_every"], is_reset


class Copying(Database):
    """A database that copies: of the Data of its child."""

    def take_data(self, data):
        """Takes a Data, and gives the line that is printed."""
        side = self.side
        side["role"], side["child"] = 2, data["child"]
        if data["from"] > data["prev"]:
            self.store(data["from"], [], (4, {"child": data["child"], "above": data["prev"], "upto": data["from"]}))
            self.miss(data["prev"], data["from"])
        series_of, names = self.names(data)
        for beat in data["beats"]:
            if self.is_due:
                self.checkpoint()
            self.define("charts", names["charts"], usual_chart)
            self.define("dimensions", names["dimensions"], usual_dimension)
            words = sorted((series_of[word["dimension"]], word["word"]) for word in beat["words"])
            charts, moment = [side["dimensions"][series]["chart"] for series, _ in words], beat["moment"]
            points = [(series, side["charts"][chart]["update_every"], word) for (series, word), chart in zip(words, charts)]
            words = [{"series": series, "word": word} for series, word in words]
            self.store(moment, points, (2, {"child": data["child"], "moment": moment, **names, "words": words}))
            names = {"charts": [], "dimensions": []}
            for chart, word in zip(charts, words):
                side["moments"][chart] = moment
                side["last_points"][word["series"]] = {"moment": moment, "word": word["word"]}
        return f"STORED {self.count}"

    def miss(self, above, upto):
        """A span was not copied: where the last one ends where it begins, the two are one."""
        gaps = self.side["gaps"]
        if gaps and gaps[-1]["upto"] == above:
            above = gaps.pop()["above"]
        gaps.append({"above": above, "upto": upto})

    def names(self, data):
        """The series of the dimensions of a Data, and its charts and dimensions by their numbers."""
        charts = [each["id"] for each in self.side["charts"]]
        dimensions = [(each["chart"], each["id"]) for each in self.side["dimensions"]]
        names = {"charts": [], "dimensions": []}
        for each in data["charts"]:
            number = place_of(each["id"], charts)
            names["charts"].append({"number": number, **each})
        series_of = []
        for each in data["dimensions"]:
            number = charts.index(data["charts"][each["chart"]]["id"])
            series_of.append(place_of((number, each["id"]), dimensions))
            names["dimensions"].append({"series": series_of[-1], "chart": number, "id": each["id"], "hidden": each["hidden"]})
        names["charts"].sort(key=lambda each: each["number"])
        names["dimensions"].sort(key=lambda each: each["series"])
        return series_of, names


def place_of(name, names):
    """The place of a name, which is put behind the others where it is new."""
    if name not in names:
        names.append(name)
    return names.index(name)


def usual_chart(told):
    """A chart of which its child told this."""
    part = told["id"].split(".", 1)[1]
    return {**told, "name": part, "title": "", "units": "", "family": part, "kind": 0, "priority": 1000, "store_first": False}


def usual_dimension(told):
    name = told["id"]
    return {"series": told["series"], "chart": told["chart"], "id": name, "name": name, "algorithm": 0, "multiplier": 1, "divisor": 1,
            "marks": int(told["hidden"])}


# ---- what is given to the program

KINDS = ("line", "area", "stacked")
ALGORITHMS = ("absolute", "incremental", "percentage-of-absolute-row", "percentage-of-incremental-row")
MARKS = ("", "hidden", "noreset", "hidden noreset")
STATUSES = ("REMOVED", "UNDEFINED", "UNINITIALIZED", "CLEAR", None, "WARNING", "CRITICAL")


def shown(value):
    """A value of an alarm as text."""
    if value in Value.NAMES:
        return value
    whole_part, rest = divmod(abs(value), ONE)
    return "-" * (value < 0) + str(whole_part) + (f".{rest:07d}".rstrip("0") if rest else "")


def event_line(event):
    due = event["due"]["moment"] if event["due"] else "-"
    words = [event[name] for name in ("id", "moment", "chart", "alarm")]
    words += [STATUSES[event["old"]], STATUSES[event["new"]], shown(event["value"]), due]
    return "EVENT " + " ".join(map(str, words))


def text_of(beat, database):
    """The lines of a beat, once the database has taken it."""
    charts, dimensions, lines = database.side["charts"], database.side["dimensions"], []
    for each in beat["definitions"]:
        if "number" in each:
            texts = [f"'{each[name]}'" for name in ("id", "name", "title", "units", "family", "context")]
            options = "'store_first'" if each["store_first"] else "''"
            numbers = [KINDS[each["kind"]], each["priority"], each["update_every"], options]
            lines.append(" ".join(map(str, ["CHART", *texts, *numbers])))
        else:
            lines.append(f"DIMENSION '{each['id']}' '{each['name']}' {ALGORITHMS[each['algorithm']]} {each['multiplier']} "
                         f"{each['divisor']} '{MARKS[each['marks']]}'")
    for chart, values in beat["rows"].items():
        lines.append(f"BEGIN {charts[chart]['id']}")
        lines += [f"SET {dimensions[series]['id']} = {value}{' A' * anomalous}" for series, (value, anomalous) in values.items()]
        lines.append("END")
    return "".join(line + "\n" for line in [*lines, f"MOMENT {beat['moment']}"])


def chart(number, name, update_every, kind=0, priority=100, store_first=False, title="Title"):
    return {"number": number, "id": name, "name": f"name {number}", "title": title, "units": "GiB/s", "family": "a family",
            "context": "a.context", "kind": kind, "priority": priority, "update_every": update_every, "store_first": store_first}


def dimension(series, chart_number, name, algorithm=0, multiplier=1, divisor=1, marks=0):
    return {"series": series, "chart": chart_number, "id": name, "name": f"name of {name}", "algorithm": algorithm,
            "multiplier": multiplier, "divisor": divisor, "marks": marks}


def at(moment, *definitions, rows=None, states=None, events=()):
    """A beat. A value is a number, or a text of a number that is marked as anomalous."""
    rows = {number: {series: (int(value), isinstance(value, str)) for series, value in values.items()}
            for number, values in (rows or {}).items()}
    return {"moment": moment, "definitions": definitions, "rows": rows, "states": states, "events": events}


def health(text, states, events=()):
    return {"text": text, "states": states, "events": events}


def state(alarm, number, status, value="nan", delay=None):
    delay = delay and dict(zip(("up", "down", "due"), delay))
    return {"alarm": alarm, "chart": number, "status": STATUSES.index(status), "value": value, "delay": delay}


def event(chart_id, alarm, old, new, value="nan", due=None):
    return {"chart": chart_id, "alarm": alarm, "old": STATUSES.index(old), "new": STATUSES.index(new), "value": value,
            "due": due and {"moment": due}}


# ---- the check


def without_beats():
    return 7, "", []


def not_sealed():
    """A few beats, which fill no segment: the settings stand in the body, the beats in the journal."""
    big = 2**63 - 1
    definitions = [chart(0, "a.b", 1, kind=1, priority=-5, store_first=True, title="Größe, 30° °"),
                   dimension(0, 0, "whole"), dimension(1, 0, "part", multiplier=-3, divisor=7, marks=1),
                   dimension(2, 0, "rise", algorithm=1, multiplier=2, divisor=3),
                   dimension(3, 0, "fall", algorithm=1, marks=2), dimension(4, 0, "share", algorithm=2, marks=3),
                   chart(1, "a.c.d", 60, kind=2, priority=2**62),
                   dimension(5, 1, "in", algorithm=3, multiplier=100), dimension(6, 1, "out", algorithm=3, divisor=-2**31 + 1)]
    beats = [
        at(60, *definitions, rows={1: {6: 100, 5: 7}, 0: {0: 42, 1: "42", 2: 10, 3: 10, 4: -1}}),
        at(61, rows={0: {0: big, 1: -big, 2: 13, 3: 4, 4: "0"}}),
        at(62),
        at(63, chart(0, "a.b", 1, kind=2), dimension(7, 0, "zero"), rows={0: {7: "0", 2: "9", 3: 3, 0: 0}}),
        at(120, rows={1: {5: 10, 6: 101}, 0: {}}),
        at(4_294_967_295, rows={0: {0: 123_456_789_012}}),
    ]
    return 2**64 - 1, "262144 1024 1000 1 1000 7", [beats]


FULL = """alarm: full
on: disk.root
calc: $used
every: 1s
warn: $this > 50
crit: $this > (($status == $CRITICAL) ? (70) : (90))
delay: up 10s down 60s multiplier 1.5 max 5m
"""
NOTHING = "alarm: nothing\non: disk.root\ncalc: nan\nevery: 1s\nunits: GiB\n"
OVER = "template: over\non: a.context\ncalc: $used / 0\nevery: 1m\n"
UNDER = "alarm: under\non: net.eth0\ncalc: -inf\nevery: 1s\n"


def all_sealed():
    """Each beat with points, each minute and each hour is a segment, and one of them is kept. Alarms step meanwhile."""
    first = [chart(0, "disk.root", 1), dimension(0, 0, "used", divisor=10), dimension(1, 0, "free", algorithm=1)]
    second = [chart(1, "net.eth0", 60), dimension(2, 1, "in", algorithm=1, marks=1), dimension(3, 1, "out", multiplier=-1)]
    full = [state("full", 0, "CLEAR", 30 * ONE), state("full", 0, "WARNING", 60 * ONE, (10, 60, 3610)),
            state("full", 0, "CLEAR", 205 * ONE // 10, (10, 60, 3720)), state("full", 0, "CRITICAL", 95 * ONE, (15, 90, 3735)),
            state("full", 0, "CRITICAL", 80 * ONE, (15, 90, 3735)), state("full", 0, "CLEAR", -1 * ONE, (10, 60, 7265))]
    nothing = state("nothing", 0, "UNDEFINED")
    over = [state("over", 0, "UNINITIALIZED"), state("over", 0, "UNDEFINED", "inf"), state("over", 0, "UNDEFINED", "-inf")]
    over_net = [state("over", 1, "UNDEFINED")]
    under = [state("under", 1, "UNDEFINED", "-inf"), state("under", 1, "UNINITIALIZED")]
    return 1, "1 1 1 1 1 1", [
        [at(3540, *first, rows={0: {0: 100, 1: 5}})],
        health(FULL + NOTHING + OVER + UNDER, [state("full", 0, "UNINITIALIZED"), state("nothing", 0, "UNINITIALIZED"), over[0]]),
        [
            at(3599, rows={0: {0: 300, 1: 25}}, states=[full[0], nothing, over[0]],
               events=[event("disk.root", "full", "UNINITIALIZED", "CLEAR", 30 * ONE),
                       event("disk.root", "nothing", "UNINITIALIZED", "UNDEFINED")]),
            at(3600, *second, rows={0: {0: "600", 1: 20}, 1: {2: 7, 3: 8}},
               states=[full[1], nothing, over[1], *over_net, under[0]],
               events=[event("disk.root", "full", "CLEAR", "WARNING", 60 * ONE, 3610),
                       event("disk.root", "over", "UNINITIALIZED", "UNDEFINED", "inf"),
                       event("net.eth0", "over", "UNINITIALIZED", "UNDEFINED"),
                       event("net.eth0", "under", "UNINITIALIZED", "UNDEFINED", "-inf")]),
            at(3660, rows={0: {0: 205}, 1: {2: 9}}, states=[full[2], nothing, over[1], *over_net, under[0]],
               events=[event("disk.root", "full", "WARNING", "CLEAR", 205 * ONE // 10, 3720)]),
            at(3720, rows={0: {0: 950}}, states=[full[3], nothing, over[1], *over_net, under[0]],
               events=[event("disk.root", "full", "CLEAR", "CRITICAL", 95 * ONE, 3735)]),
        ],
        [
            at(7200, rows={0: {0: 800, 1: 1000}, 1: {3: 1, 2: 3}}, states=[full[4], nothing, over[1], *over_net, under[0]]),
            at(7205, rows={0: {0: -10}}, states=[full[5], nothing, over[1], *over_net, under[0]],
               events=[event("disk.root", "full", "CRITICAL", "CLEAR", -1 * ONE, 7265)]),
        ],
        health(FULL + OVER + UNDER + "to: somebody\n", [full[5], over[1], *over_net, under[1]],
               [event("disk.root", "nothing", "UNDEFINED", "REMOVED"), event("net.eth0", "under", "UNDEFINED", "REMOVED")]),
        [at(10800, rows={0: {0: -10}, 1: {}}, states=[full[5], over[2], *over_net, under[0]],
            events=[event("net.eth0", "under", "UNINITIALIZED", "UNDEFINED", "-inf")]),
         at(10801)],
    ]


def several_sealed():
    """Segments of some beats, with pages of some items, of which two and more are kept."""
    first = [chart(0, "a.fast", 1), dimension(0, 0, "x"), dimension(1, 0, "y", algorithm=1), chart(1, "a.slow", 10),
             dimension(2, 1, "z", divisor=1000)]
    beats, moment = [], 7000
    for number in range(90):
        moment += (1, 1, 2, 7, 8, 3, 1, 30, 10, 200)[number * number % 10] + 3000 * (number % 11 == 10)
        rows = {0: {0: number**3, 1: number * number % 7}}
        if number % 4 == 1:
            rows[0].pop(1)
        if number % 3 == 2:
            moment += -moment % 10
            rows[1] = {2: str(number) if number % 2 else -number}
        beats.append(at(moment, *(first if number == 0 else ()), rows=rows))
    return 3, "20 3 5 2 7 1", [beats[:1], beats[1:30], beats[30:31], beats[31:]]


def run(program, folder, *words, text=""):
    ended = subprocess.run([program, *words], cwd=folder, input=text.encode(), capture_output=True, check=False)
    if ended.returncode != 0 or ended.stderr:
        raise Bad(f"{' '.join(words)} ended with {ended.returncode}: {ended.stderr.decode()}")
    return ended.stdout.decode().splitlines()


def files_in(folder):
    """What the files of a database hold; one that is not there is empty."""
    contents = []
    for number in range(7):
        path = os.path.join(folder, f"nda.{number}")
        content = b""
        if os.path.exists(path):
            with open(path, "rb") as file:
                content = file.read()
        contents.append(content)
    return contents


def read_back(folder):
    """What the files say, part by part. Each part that was read is written again, to the same bytes."""
    files, told = files_in(folder), []
    slots = [(*slot, file) for parity, file in enumerate(files[:2]) for slot in [read_slot(file, parity)] if slot]
    want(slots, "no checkpoint is open")
    for number, content, file in sorted(slots):
        body = whole(BODY, content)
        check_body(body)
        side = whole(SIDE, body["side"])
        want(write_slot(number, BODY.write({**body, "side": SIDE.write(side)})) == file, f"checkpoint {number} is not read back")
        told.append((f"checkpoint {number}", {**body, "side": side}))
        for tier, extents in enumerate(body["extents"]):
            for extent in extents:
                start = extent["slot"] * slot_size(tier, body["quotas"][tier]["full"])
                pages = read_extent(tier, files[4 + tier][start : start + extent["size"]])
                told.append((f"tier {tier}, slot {extent['slot']}", pages))
        journal = files[2 + number % 2]
        generation, records = read_journal(journal)
        want(generation == number, f"the journal of checkpoint {number} is of another generation")
        again = empty_journal(generation)
        for record in records:
            beat = whole(BEAT, record)
            entry = whole(ENTRY, beat["note"])
            again = with_record(again, BEAT.write({**beat, "note": ENTRY.write(entry)}))
            told.append((f"beat behind checkpoint {number}", {**beat, "note": entry}))
        want(again == journal, f"the journal of checkpoint {number} is not read back")
    return told


def compare(folder, database):
    for number, (found, wanted) in enumerate(zip(files_in(folder), database.files)):
        if found != wanted:
            places = (n for n, (one, other) in enumerate(zip(found, wanted)) if one != other)
            place = next(places, min(len(found), len(wanted)))
            raise Bad(f"nda.{number} has {len(found)} bytes, by the document {len(wanted)}; from {place} on "
                      f"{found[place:place + 24].hex()} and not {wanted[place:place + 24].hex()}")


def check(program, number, quotas, steps):
    """One database: after each command its files, and what was printed, are those of the document."""
    default = "262144 256 65536 64 65536 16"
    numbers = list(map(int, (quotas or default).split()))
    with tempfile.TemporaryDirectory() as folder:
        run(program, folder, "new", str(number), *quotas.split())
        database = Collecting(number, list(zip(numbers[0::2], numbers[1::2])))
        compare(folder, database)
        for step in steps:
            if isinstance(step, list):
                text, lines = "", []
                for beat in step:
                    lines += database.beat(beat)
                    text += text_of(beat, database)
                printed = run(program, folder, "run", text=text)
            else:
                lines = database.health(step)
                printed = run(program, folder, "health", text=step["text"])
            if printed != lines:
                raise Bad(f"{printed} was printed, and not {lines}")
            compare(folder, database)
            read_back(folder)


CASES = (without_beats, not_sealed, all_sealed, several_sealed)


# ---- a copy

CHILD = 2**64 - 2
CHARTS = [{"id": "a.b.c", "context": "a.context", "update_every": 1}, {"id": "d.e", "context": "", "update_every": 10}]
NEXT_CHARTS = [CHARTS[1], {"id": "f.g", "context": "f.g", "update_every": 2}]


def data(prev, start, floor, charts, dimensions, *beats):
    dimensions = [dict(zip(("chart", "id", "hidden"), each)) for each in dimensions]
    beats = [{"moment": moment, "words": [{"dimension": place, "word": pack(Fraction(value), value < 0)}
                                          for place, value in values.items()]} for moment, values in beats]
    return {"child": CHILD, "prev": prev, "from": start, "upto": beats[-1]["moment"], "floor": floor, "charts": charts,
            "dimensions": dimensions, "beats": beats}


COPIED = [
    data(0, 0, 0, CHARTS, [(1, "x", False), (0, "y", True)], (3590, {0: 7, 1: -8})),
    data(3590, 3599, 3600, NEXT_CHARTS, [(0, "x", False), (1, "z", False), (0, "y", False)],
         (3600, {0: 1, 2: 10**20}), (3602, {1: 5}), (7200, {0: Fraction(1, 3), 1: -5})),
    data(7200, 7300, 1, CHARTS[:1], [(0, "y", True)], (7301, {0: 0})),
]


def expect(link, frame):
    """The next bytes of a link are this frame."""
    found = b""
    while len(found) < len(frame):
        piece = link.recv(len(frame) - len(found))
        want(piece, f"the link ended behind {found.hex()}, and not with {frame.hex()}")
        found += piece
    want(found == frame, f"the frame {found.hex()} came, and not {frame.hex()}")


def connected(address, receiver):
    """A link to the parent, once it listens."""
    for _ in range(100):
        try:
            return socket.create_connection(address, timeout=20)
        except ConnectionRefusedError:
            want(receiver.poll() is None, f"receive ended with {receiver.returncode}")
            time.sleep(0.02)
    raise Bad("receive does not listen")


def receive(program, folder, database, messages):
    """One session: this script is the child."""
    with socket.create_server(("127.0.0.1", 0)) as free:
        address = free.getsockname()
    words = [program, "receive", f"127.0.0.1:{address[1]}"]
    with subprocess.Popen(words, cwd=folder, stdout=subprocess.PIPE, stderr=subprocess.STDOUT) as receiver:
        try:
            with connected(address, receiver) as link:
                link.sendall(write_frame("Hello", child=CHILD))
                expect(link, write_frame("Ask", child=CHILD, last=database.last))
                lines = []
                for message in messages:
                    link.sendall(write_frame("Data", **message))
                    lines.append(database.take_data(message))
                    expect(link, write_frame("Have", last=database.last))
                link.sendall(write_frame("Bye", why=0))
            printed = receiver.communicate(timeout=20)[0].decode().splitlines()
        finally:
            receiver.kill()
    want(receiver.returncode == 0 and printed == lines, f"receive ended with {receiver.returncode}, and printed {printed}")


def check_copy(program):
    with tempfile.TemporaryDirectory() as folder:
        run(program, folder, "new", "9", *"1 2 1 1 1 1".split())
        database = Copying(9, [(1, 2), (1, 1), (1, 1)])
        compare(folder, database)
        for messages in (COPIED[:1], COPIED[1:]):
            receive(program, folder, database, messages)
            compare(folder, database)
            read_back(folder)


def check_all(program):
    failed = 0
    cases = [(case.__name__, check, program, *case()) for case in CASES]
    for name, attempt, *given in [*cases, ("copy", check_copy, program)]:
        try:
            attempt(*given)
        except (Bad, OSError) as fault:
            failed = 1
            print(f"tools/layout.py, {name}: {fault}")
    return failed


def main(words):
    if len(words) == 2 and words[0] == "--check":
        return check_all(os.path.abspath(words[1]))
    if len(words) == 1 and not words[0].startswith("-"):
        try:
            for name, value in read_back(words[0]):
                print(name, value)
        except (Bad, OSError) as fault:
            print(f"{words[0]}: {fault}", file=sys.stderr)
            return 1
        return 0
    print(__doc__.strip(), file=sys.stderr)
    return 1


if __name__ == "__main__":
    sys.exit(main(sys.argv[1:]))
