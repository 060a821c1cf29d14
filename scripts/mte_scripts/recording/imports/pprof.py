"""Heap profiles in the form of pprof: a message of Protocol Buffers, as Go writes it, and many other programs."""

import re
from typing import Iterator, NamedTuple

from mte_scripts.recording.imports import import_result
from mte_scripts.recording.imports.import_result import Buckets, ImportResult
from mte_scripts.recording.imports.source import Source, Wrong

NAME = "pprof"
WHAT = "a heap profile of pprof, such as Go's"
KINDS = (import_result.ALL, import_result.LIVE)

BEGIN = re.compile(rb"(?!)")  # a message has no mark: it is taken where nothing else is found
NUMBER, EIGHT, TEXT, FOUR = 0, 1, 2, 5  # kinds of fields
# the numbers of fields
SAMPLE_TYPE, SAMPLE, STRING, PERIOD_TYPE, PERIOD = 1, 2, 6, 11, 12
TYPE, UNIT = 1, 2
VALUE, LABEL = 2, 3
KEY, NUMERIC = 1, 3
MOST_TYPES = 64
MOST_BYTES = 10  # of a number
# what may be counted, by the names of the number of blocks and of their bytes
PAIRS = {
    import_result.ALL: [("alloc_objects", "alloc_space"), ("allocations", "size")],
    import_result.LIVE: [("inuse_objects", "inuse_space"), ("objects", "space")],
}
# labels of a sample that have the bytes of one of its blocks: as requested, and on average
REQUEST, AVERAGE = "request", "bytes"
UNITS = ("count", "objects", "bytes", "byte")
KNOWN = {name.encode(): name for name in (*(name for pairs in PAIRS.values() for pair in pairs for name in pair), REQUEST, AVERAGE, *UNITS)}


class Field(NamedTuple):
    number: int
    value: int  # or where the text begins
    end: int  # of the text; 0 where it is a number


class Types(NamedTuple):
    """What the values of each sample are."""

    names: list
    units: list
    period: int
    period_type: str
    labels: dict  # the labels that are used, by the numbers of their names


def read(source: Source, kind: str) -> ImportResult:
    data = source.whole()
    types = types_of(data)
    kind, objects, space = pair_of(types, kind)
    buckets, requested = Buckets(), 0
    for field in fields(data, 0, len(data)):
        if field.number == SAMPLE and field.end:
            requested += add_sample(buckets, data, field, types, objects, space)
    return ImportResult(kind, buckets.counts, notes_of(types, buckets, requested))


def notes_of(types: Types, buckets: Buckets, requested: int) -> list:
    lines = buckets.told("pprof")
    if requested:
        lines.append(
            f"{import_result.number(requested, 'block')} have their size as a label `{REQUEST}`, and count as that"
        )
    if types.period > 1 and types.period_type == "space":
        lines.append(f"sampled, a block in about {types.period:,} bytes: the counts are estimates, which who wrote the file has scaled up")
        lines.append(f"! {import_result.MISSED}")
    lines.append("the sizes are as the allocator's own recorder has them: Go's are those of its classes, and not what was requested")
    return lines


def number_at(data: bytes, at: int, end: int) -> tuple:
    """A number, and where it ends."""
    if at < end and data[at] < 128:  # most have one byte
        return data[at], at + 1
    value = 0
    for place, byte in enumerate(data[at : min(at + MOST_BYTES, end)]):
        value |= (byte & 127) << 7 * place
        if byte < 128 and not value >> 64:
            return value, at + place + 1
    raise Wrong(f"at byte {at} is no number of Protocol Buffers")


def fields(data: bytes, at: int, end: int) -> Iterator[Field]:
    """The fields of a message that are numbers or texts."""
    while at < end:
        begin = at
        key, at = number_at(data, at, end)
        kind = key & 7
        if kind == NUMBER:
            value, at = number_at(data, at, end)
            yield Field(key >> 3, value, 0)
            continue
        if kind == TEXT:
            length, at = number_at(data, at, end)
        elif kind in (EIGHT, FOUR):
            length = 8 if kind == EIGHT else 4
        else:
            raise Wrong(f"at byte {begin} is no field of Protocol Buffers")
        if length > end - at:
            raise Wrong(f"the field at byte {begin} goes on after the end: is the file cut off?")
        if kind == TEXT:
            yield Field(key >> 3, at, at + length)
        at += length


def types_of(data: bytes) -> Types:
    """Reads all but the samples."""
    types, strings, period, period_type = [], {}, 0, 0
    texts_seen = 0
    first: list = []  # of the texts, for messages
    for field in fields(data, 0, len(data)):
        if field.number == STRING and field.end:
            word = data[field.value : min(field.end, field.value + 40)]
            if word in KNOWN:
                strings[texts_seen] = KNOWN[word]
            if len(first) < MOST_TYPES:
                first.append(word)
            texts_seen += 1
        elif field.number == SAMPLE_TYPE and field.end:
            types.append({each.number: each.value for each in fields(data, field.value, field.end)})
            if len(types) > MOST_TYPES:
                raise Wrong(f"it has more than {MOST_TYPES} types of samples")
        elif field.number == PERIOD_TYPE and field.end:
            period_type = {each.number: each.value for each in fields(data, field.value, field.end)}.get(TYPE, 0)
        elif field.number == PERIOD and not field.end:
            period = field.value
    if not types or not texts_seen:
        raise Wrong("it has no types of samples, so it is no profile of pprof")
    names = [strings.get(each.get(TYPE, 0)) or text_at(first, each.get(TYPE, 0)) for each in types]
    units = [strings.get(each.get(UNIT, 0)) or text_at(first, each.get(UNIT, 0)) for each in types]
    labels = {at: word for at, word in strings.items() if word in (REQUEST, AVERAGE)}
    return Types(names, units, period, strings.get(period_type, ""), labels)


def text_at(first: list, at: int) -> str:
    return first[at].decode(errors="replace") if at < len(first) else "?"


def pair_of(types: Types, kind: str) -> tuple:
    """What is counted, and the places of the number of blocks and of their bytes."""
    for wanted in (kind, import_result.LIVE) if kind == import_result.ALL else (kind,):
        for objects, space in PAIRS[wanted]:
            if objects in types.names and space in types.names:
                places = types.names.index(objects), types.names.index(space)
                units = [types.units[place] for place in places]
                if units[0] not in UNITS[:2] or units[1] not in UNITS[2:]:
                    raise Wrong(f"its {objects} and {space} are in {units[0]} and {units[1]}, not a count and bytes")
                return (wanted, *places)
    named = ", ".join(f"{name} in {unit}" for name, unit in zip(types.names, types.units))
    lacks = "no live blocks" if kind == import_result.LIVE else "no number of blocks"
    raise Wrong(f"it has {lacks}, only {named}: without a number no size can be told")


def add_sample(buckets: Buckets, data: bytes, sample: Field, types: Types, objects: int, space: int) -> int:
    """Counts the blocks of a sample; how many of them have their size as a label."""
    values: list = []
    labels: dict = {}
    for field in fields(data, sample.value, sample.end):
        if field.number == VALUE:
            values += read_packed(data, field) if field.end else [field.value]
            if len(values) > len(types.names):
                raise Wrong("a sample has more values than there are types")
        elif field.number == LABEL and field.end:
            label = {each.number: each.value for each in fields(data, field.value, field.end) if not each.end}
            if name := types.labels.get(label.get(KEY, 0)):
                labels[name] = label.get(NUMERIC, 0)
    if len(values) != len(types.names):
        raise Wrong(f"a sample has {len(values)} values, and there are {len(types.names)} types")
    blocks, total = values[objects], values[space]
    if max(blocks, total) >> 63:
        raise Wrong("a sample has fewer than no blocks: it is the difference of two profiles")
    if REQUEST in labels:
        buckets.add(blocks, blocks * labels[REQUEST])
        return blocks
    average = labels.get(AVERAGE, 0)
    # an estimate has its blocks and its bytes rounded each by itself: then the label is more exact
    is_near = types.period > 1 and abs(blocks * average - total) <= average
    buckets.add(blocks, blocks * average if is_near else total)
    return 0


def read_packed(data: bytes, field: Field) -> list:
    values: list = []
    at = field.value
    while at < field.end and len(values) <= MOST_TYPES:
        value, at = number_at(data, at, field.end)
        values.append(value)
    return values
