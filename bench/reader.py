"""Reads traces and scripts as docs/FORMATS.md says, and says what the modes with a store of their own answer.

It was written from that page alone, and has nothing of the program: what is refused here has to be refused there, by the
same line and cause, and what the program answers has to be what stands here. The commands of a trace are those of
`cache_model.py`: a word, a key with its table, and what follows.
"""
import bisect
import collections
import re

from cache_model import DENSE, SEGMENT_PAGES, size_of

MOST_BYTES, MOST_COMMANDS, MOST_REPLIES, SCAN_ROOM = 67_108_864, 1_048_576, 536_870_912, 8_272
MOST_KEY, MOST_VALUE, MOST_LONG_VALUE, MOST_NAME, MOST_READ, TABLE_PAGES = 256, 12_000, 1_048_576, 999, 64, 1_536
WORDS, COUNTS, TABLES = (b"put", b"get", b"erase", b"scan"), {b"%d" % n for n in range(1, 33)}, {b"%d" % n for n in range(8)}
IN_NO_KEY, IN_NO_VALUE = re.compile(rb"[\x00-\x20\x7f]"), re.compile(rb"[\x00-\x1f\x7f]")
NUMBER = re.compile(rb"0|[1-9][0-9]{0,9}")
FRAGMENT, FRAGMENT_HEAD, NODE, ENTRIES_AT_LEAST, SPARE_NODES = 12_264, 32, 4_392, 7, 9


class Refused(Exception):
    """A refusal: its cause, and its line, which a reader of single lines leaves to its caller."""

    def __init__(self, cause, line=None):
        super().__init__(cause)
        self.cause, self.line = cause, line

    def text(self):
        return b"refused line %d %s\n" % (self.line, self.cause.encode())


def refuse_where(refused, cause):
    if refused:
        raise Refused(cause)


def field(text):
    """A field, and what stands behind the space that follows it, or None where none does."""
    first, space, rest = text.partition(b" ")
    return first, rest if space else None


def command_of(line, in_tables):
    """The command of a line of a trace. Its causes come from left to right."""
    word, rest = field(line)
    refuse_where(word not in WORDS, "UnknownWord")
    refuse_where(rest is None, "MissingField")
    table = b"0"
    if in_tables:
        table, rest = field(rest)
        refuse_where(table not in TABLES, "Table")
        refuse_where(rest is None, "MissingField")
    key, rest = field(rest)
    refuse_where(not 1 <= len(key) <= MOST_KEY, "KeyLength")
    refuse_where(IN_NO_KEY.search(key), "KeyByte")
    command = [word, (int(table), key)]
    if word in (b"get", b"erase"):
        refuse_where(rest is not None, "ExtraField")
        return command
    refuse_where(rest is None, "MissingField")
    if word == b"put":
        refuse_where(len(rest) > MOST_VALUE, "ValueLength")
        refuse_where(IN_NO_VALUE.search(rest), "ValueByte")
        return [*command, rest]
    count, behind = field(rest)
    refuse_where(count not in COUNTS, "Count")
    refuse_where(behind is not None, "ExtraField")
    return [*command, count]


def number_of(text, most):
    """The number that a field of a script spells."""
    refuse_where(not NUMBER.fullmatch(text) or int(text) > most, "Number")
    return int(text)


def step_of(line):
    """The command of a line of a script."""
    word, rest = field(line)
    refuse_where(word not in (b"set", b"read", b"drop"), "UnknownWord")
    refuse_where(rest is None, "MissingField")
    name, rest = field(rest)
    name = number_of(name, MOST_NAME)
    if word == b"drop":
        refuse_where(rest is not None, "ExtraField")
        return word, name
    refuse_where(rest is None, "MissingField")
    if word == b"set":
        refuse_where(len(rest) > MOST_LONG_VALUE, "ValueLength")
        refuse_where(IN_NO_VALUE.search(rest), "ValueByte")
        return word, name, rest
    at, rest = field(rest)
    at = number_of(at, MOST_LONG_VALUE)
    refuse_where(rest is None, "MissingField")
    count, rest = field(rest)
    count = number_of(count, MOST_READ)
    refuse_where(rest is not None, "ExtraField")
    return word, name, at, count


def commands_in(text, command, passed=0):
    """The commands of a text, each line's by a reader, behind so many lines that are passed over."""
    if len(text) > MOST_BYTES:
        raise Refused("TooLong", 0)
    found = []
    for number, line in enumerate(text.split(b"\n"), 1):
        line = line.removesuffix(b"\r")
        if number <= passed or not line or line.startswith(b"#"):
            continue
        try:
            refuse_where(len(found) == MOST_COMMANDS, "TooManyCommands")
            found.append(command(line))
        except Refused as refused:
            raise Refused(refused.cause, number) from None
    return found


def trace_of(text, mode, shards, pages):
    """The commands of a trace that a mode is given on shards of so many pages. Raises its refusal."""
    in_tables = text.partition(b"\n")[0].removesuffix(b"\r") == b"version 2"
    commands = commands_in(text, lambda line: command_of(line, in_tables), int(in_tables))
    kinds = collections.Counter(command[0] for command in commands)
    longest = max((len(command[2]) for command in commands if command[0] == b"put"), default=0)
    if kinds[b"get"] * longest + kinds[b"scan"] * shards * SCAN_ROOM > MOST_REPLIES:
        raise Refused("RepliesTooLarge", 0)
    if in_tables and mode in ("dirty", "index"):
        raise Refused("Version", 1)
    if in_tables and pages < TABLE_PAGES:
        raise Refused("PagesTooFew", 1)
    return commands


def dirty_text(commands, pages):
    """What the mode `dirty` writes."""
    most, live, queue, lines = (pages // SEGMENT_PAGES - 2) * DENSE, 0, collections.deque(), []
    newest = {}

    def flush():
        number, key, value = queue.popleft()
        if newest[key][0] == number:
            del newest[key]
        lines.append(b"put %s %s" % (key, value))
        return size_of(key, value)

    for number, (word, (_, key), *rest) in enumerate(commands, 1):
        if word == b"put":
            size = size_of(key, rest[0])
            while live + size > most:
                live -= flush()
            queue.append((number, key, rest[0]))
            newest[key] = number, rest[0]
            live += size
        elif word == b"get":
            lines.append(b"%d dirty %s" % (number, newest[key][1]) if key in newest else b"%d clean" % number)
        else:
            lines.append(b"%d passed" % number)
    while queue:
        flush()
    return b"".join(line + b"\n" for line in [*lines, b"dirty %d" % sum(command[0] == b"put" for command in commands)])


def index_text(commands, pages):
    """What the mode `index` writes."""
    room = ((pages // SEGMENT_PAGES - 2) * DENSE // NODE - SPARE_NODES) * ENTRIES_AT_LEAST
    numbers, keys, lines = {}, [], []
    for number, (word, (_, key), *rest) in enumerate(commands, 1):
        at = bisect.bisect_left(keys, key)
        if word == b"scan":
            answer = b" ".join([b"keys", *keys[at:at + int(rest[0])]])
        elif word == b"get":
            answer = b"at %d" % numbers[key] if key in numbers else b"missing"
        elif word == b"erase":
            answer = b"missing" if numbers.pop(key, None) is None else b"erased"
            if answer == b"erased":
                del keys[at]
        elif key not in numbers and len(keys) == room:
            answer = b"full"
        else:
            answer = b"replaced" if key in numbers else b"stored"
            if key not in numbers:
                keys.insert(at, key)
            numbers[key] = number
        lines.append(b"%d %s" % (number, answer))
    return b"".join(line + b"\n" for line in [*lines, b"index %d" % len(keys)])


def fragments_size(value):
    """The bytes of a long value's fragments, each rounded up to a multiple of 8."""
    parts = [min(FRAGMENT, len(value) - at) for at in range(0, len(value), FRAGMENT)] or [0]
    return sum((FRAGMENT_HEAD + part + 7) // 8 * 8 for part in parts)


def values_text(steps, pages):
    """What the mode `values` writes of a script."""
    room, live = (pages // SEGMENT_PAGES - 2) * DENSE, 0
    values, lines = {}, []
    for number, (word, name, *rest) in enumerate(steps, 1):
        if word == b"set":
            size = fragments_size(rest[0])
            answer = b"full" if live + size > room else b"set"
            if answer == b"set":
                live += size - (fragments_size(values[name]) if name in values else 0)
                values[name] = rest[0]
        elif name not in values:
            answer = b"missing"
        elif word == b"drop":
            live -= fragments_size(values.pop(name))
            answer = b"dropped"
        else:
            value, (at, count) = values[name], rest
            answer = b"value %d %s" % (len(value), value[at:at + count])
        lines.append(b"%d %s" % (number, answer))
    return b"".join(line + b"\n" for line in [*lines, b"values %d live %d" % (len(values), live)])
