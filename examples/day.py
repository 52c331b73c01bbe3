#!/usr/bin/env python3
"""Document 01's day through libekhurtza.so, by ctypes: each answer as gateday prints it, then the listing, on standard output. On standard error the
same day as call lines, then the group's room and the listing read back. The gate is loaded with document 01's own ratios, which changes no answer.

    python3 examples/day.py [LIBRARY]      (else target/lib/libekhurtza.so beside; make library)
"""
import ctypes
import pathlib
import sys

REGISTER, BOOK, PLACE = 2000, 194, 4
ROW_BYTES, ROW_WORDS, CALL_BYTES, MOST_GROUPS = 108, 9, 39, 64
NOT_THERE, NO_MAXIMUM = 6, 15
DASH = 2**64 - 1
LIMIT_BUY = 1

DAY = [
    (1, 1, 1, 0, 0),
    (2, 20001, 0, 0, 0),
    (4, 1, 0, 3, 8),
    (11, 0, 0, 0, 0),
    (7, 0, 5, 0, 0),
    (8, 20001, LIMIT_BUY, 12500, 300000),
    (8, 20001, LIMIT_BUY, 10000, 200000),
    (8, 20001, LIMIT_BUY, 10000, 200000),
    (9, 1, 12400, 100000, 0),
    (10, 2, 0, 0, 0),
    (9, 1, 12600, 1, 0),
]


class Answer(ctypes.Structure):
    _fields_ = [("refusal", ctypes.c_uint64), ("number", ctypes.c_uint64)]


def library(path):
    """The library with its functions' types: without them ctypes would cut 64-bit numbers to an int."""
    lib = ctypes.CDLL(str(path))
    u64, size = ctypes.c_uint64, ctypes.c_size_t
    gate = [ctypes.POINTER(ctypes.c_uint32), size, ctypes.POINTER(u64), size, ctypes.POINTER(u64), size]
    words, text = [ctypes.POINTER(u64), size], [ctypes.POINTER(ctypes.c_uint8), size]
    for name, answer, fields in [
        ("ekhurtza_open", u64, gate),
        ("ekhurtza_load", u64, gate + text),
        ("ekhurtza_call", Answer, gate + 5 * [u64]),
        ("ekhurtza_listing", Answer, gate + text),
        ("ekhurtza_row", u64, gate + [u64] + words),
        ("ekhurtza_room", u64, gate + [u64] + words),
        ("ekhurtza_read_row", u64, text + [u64] + words),
        ("ekhurtza_call_line", u64, 5 * [u64] + text),
    ]:
        function = getattr(lib, name)
        function.restype, function.argtypes = answer, fields
    return lib


def accept(refusal):
    if refusal != 0:
        raise ValueError("refused by %d" % refusal)


class Gate:
    """A gate that owns its memory. ctypes lets go of Python's lock during a call: two threads that share a gate need a lock of their own."""

    def __init__(self, lib, orders):
        self.lib = lib
        self.register = (ctypes.c_uint32 * REGISTER)()
        self.book = (ctypes.c_uint64 * BOOK)()
        self.places = (ctypes.c_uint64 * (PLACE * orders))()
        self.memory = (self.register, REGISTER, self.book, BOOK, self.places, PLACE * orders)
        accept(lib.ekhurtza_open(*self.memory))

    def load(self, text):
        """A ratio file, before the first group is enrolled: 0, 2 or 23. Quotas follow from bases by it from then on."""
        return self.lib.ekhurtza_load(*self.memory, (ctypes.c_uint8 * len(text)).from_buffer_copy(text), len(text))

    def call(self, code, a=0, b=0, c=0, d=0):
        return self.lib.ekhurtza_call(*self.memory, code, a, b, c, d)

    def listing(self):
        buffer = (ctypes.c_uint8 * (ROW_BYTES * MOST_GROUPS))()
        listed = self.lib.ekhurtza_listing(*self.memory, buffer, len(buffer))
        accept(listed.refusal)
        return bytes(buffer[: listed.number])

    def room(self, group):
        """Own quota - net, in mils; None where the maximum is none. A buy passes the quota exactly where it is 1 or more."""
        words = (ctypes.c_uint64 * 2)()
        refusal = self.lib.ekhurtza_room(*self.memory, group, words, 2)
        if refusal == NO_MAXIMUM:
            return None
        accept(refusal)
        return -words[1] if words[0] else words[1]


def call_line(lib, *call):
    line = (ctypes.c_uint8 * CALL_BYTES)()
    accept(lib.ekhurtza_call_line(*call, line, CALL_BYTES))
    return bytes(line)


def read_line(line):
    """A call line by its columns: 2 of the code, four of 9. Only for lines that are well formed, as those written here are."""
    return [int(line[first:end]) for first, end in [(0, 2), (2, 11), (11, 20), (20, 29), (29, 38)]]


def read_listing(lib, text):
    """The rows of a listing's text. Money is Python's integers, exact; never go through float."""
    rows = []
    held = (ctypes.c_uint8 * len(text)).from_buffer_copy(text)
    while True:
        words = (ctypes.c_uint64 * ROW_WORDS)()
        refusal = lib.ekhurtza_read_row(held, len(text), len(rows), words, ROW_WORDS)
        if refusal == NOT_THERE:
            return rows
        accept(refusal)
        rows.append(list(words))


def main():
    beside = pathlib.Path(__file__).resolve().parent.parent / "target" / "lib" / "libekhurtza.so"
    lib = library(sys.argv[1] if len(sys.argv) > 1 else beside)
    gate = Gate(lib, 2048)
    accept(gate.load(b" 1   5   2\n 3   1   1\n 4   1   1\n"))
    for call in DAY:
        line = call_line(lib, *call)
        sys.stderr.write(line.decode("ascii"))
        answer = gate.call(*read_line(line))
        print("%3d%6d" % (answer.refusal, answer.number))
    listing = gate.listing()
    sys.stdout.write(listing.decode("ascii"))

    room = gate.room(0)
    if room is None:
        print("group 0: no maximum, hold", file=sys.stderr)
    else:
        print("group 0: room %d mils, %s" % (room, "may buy" if room >= 1 else "hold"), file=sys.stderr)
    for code, control_class, maximum, own, below, net, opened, bought, sold in read_listing(lib, listing):
        limits = tuple("-" if word == DASH else word for word in (maximum, own))
        signed = -net if below else net
        print("row: code %d, class %d, maximum %s, own quota %s, net %d, open %d, bought %d, sold %d" % ((code, control_class) + limits + (signed, opened, bought, sold)), file=sys.stderr)


main()
