"""A cache of its own, with nothing of the program: what the scripts hold a report against.

It has the reading of a trace, the shard of a key, the size of a row, the bound above which rows go, and the rows of a
shard in the order of their use.
"""
import bisect

BASIS, PRIME, MODULUS = 0xCBF29CE484222325, 0x100000001B3, 2**64
DENSE, SEGMENT_PAGES, TICKETS, OVERHEAD, TABLES = 118_776, 32, 32, 40, 8


def is_in_tables(trace):
    """Whether a trace's bytes are of version 2, as their first line says then: each command names a table."""
    return trace.split(b"\n", 1)[0].removesuffix(b"\r") == b"version 2"


def regions_of(trace):
    """In how many regions the rows of a shard stand: one for each table in version 2, else one."""
    return TABLES if is_in_tables(trace) else 1


def commands_of(trace):
    """The commands of a trace's bytes, each as a list of its fields: a kind, a key and what follows.

    A key is the number of a table and bytes. In version 1 all are of table 0.
    """
    lines = [line.removesuffix(b"\r") for line in trace.split(b"\n")]
    if is_in_tables(trace):
        fields = (line.split(b" ", 3) for line in lines[1:] if line and not line.startswith(b"#"))
        return [[word, (int(table), key), *rest] for word, table, key, *rest in fields]
    fields = (line.split(b" ", 2) for line in lines if line and not line.startswith(b"#"))
    return [[word, (0, key), *rest] for word, key, *rest in fields]


def owner_of(key, shards):
    """The shard that keeps the rows of a key's bytes: their FNV-1a hash of 64 bits modulo the number of shards."""
    hashed = BASIS
    for byte in key:
        hashed = (hashed ^ byte) * PRIME % MODULUS
    return hashed % shards


def size_of(key, value):
    """The bytes that a row takes of a segment."""
    return (OVERHEAD + len(key) + len(value) + 7) // 8 * 8


def bound_of(shards, pages, regions=1):
    """Up to so many live bytes no row goes: where no block can be lent, those of all segments but one for each region."""
    return (pages // SEGMENT_PAGES - (regions if shards == 1 else TICKETS + 1 + regions)) * DENSE


def floor_of(pages, regions=1):
    """Up to so many live bytes no row may go, whatever is lent."""
    return (pages // SEGMENT_PAGES - (TICKETS + 1 + regions)) * DENSE


class Cache:
    """The rows of a shard by the order of use, the one used longest ago first (LRU), and their keys in order.

    A key is a table's number and bytes, and one order of use holds for all tables.
    """

    def __init__(self):
        self.rows, self.keys, self.live = {}, [], 0

    def take(self, key):
        """Takes the row of a key out: its value, its put's number and its size. None where there is none."""
        row = self.rows.pop(key, None)
        self.live -= row[2] if row else 0
        return row

    def put(self, key, row):
        """The row of a key that has none is the one used last."""
        self.rows[key] = row
        self.live += row[2]

    def forget(self, key):
        del self.keys[bisect.bisect_left(self.keys, key)]

    def evict(self):
        """The row used longest ago goes. The number of its put, or None where there is no row."""
        key = next(iter(self.rows), None)
        if key is None:
            return None
        self.forget(key)
        return self.take(key)[1]

    def scan(self, key, count):
        """The bytes of the first keys of its table from this one on, at most so many."""
        at = bisect.bisect_left(self.keys, key)
        return [text for table, text in self.keys[at:at + count] if table == key[0]]

    def do(self, number, command):
        """The reply to a put, a get or an erase."""
        word, key = command[:2]
        row = self.take(key)
        if word == b"put":
            self.put(key, (command[2], number, size_of(key[1], command[2])))
            if not row:
                bisect.insort(self.keys, key)
            return b"replaced" if row else b"stored"
        if not row:
            return b"missing"
        if word == b"get":
            self.put(key, row)
            return b"value " + row[0]
        self.forget(key)
        return b"erased"
