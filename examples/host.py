#!/usr/bin/env python3
"""A prediction host: asks the gate through the shared library, receives a delivery and unpacks it, and asks
the judge why a sheet is not in it.

    host.py LIBRARY

LIBRARY is libferrulebee.so (./run library makes it; ./run host calls this with it). The group and the
store are made up here; a host would be handed both.
"""
import ctypes
import struct
import sys

SJ, LJ, SL, LL, SA, LA, SR, LR = range(8)
# The judge's verdicts by their code, with what goes into the braces. Only the first two grant.
VERDICTS = {
    101: "granted: the sheet was added while the model was in, tick {}",
    102: "granted: the model joined liberally a sheet added liberally, tick {}",
    103: "denied: the model was never granted the sheet up to tick {now}",
    104: "denied: a strict leave of the model ended the grant at tick {}",
    105: "denied: a strict remove of the sheet ended the grant at tick {}",
}
# Refusals of a strip, with their place.
PLACED = 13, 14


class Group(ctypes.Structure):
    """ferrulebee_group. The library keeps no pointer to it: it lives as long as this object does."""

    _fields_ = [
        ("number", ctypes.c_uint32),
        ("closed", ctypes.c_uint32),
        ("members", ctypes.c_uint64),
        ("sj", ctypes.c_uint64),
        ("lj", ctypes.c_uint64),
        ("sl", ctypes.c_uint64),
        ("ll", ctypes.c_uint64),
        ("added", ctypes.c_uint64 * 4),
        ("liberal", ctypes.c_uint64 * 4),
        ("sa", ctypes.c_uint64 * 4),
        ("la", ctypes.c_uint64 * 4),
        ("sr", ctypes.c_uint64 * 4),
        ("lr", ctypes.c_uint64 * 4),
        ("grants", ctypes.c_uint64 * 256),
    ]


class Answer(ctypes.Structure):
    _fields_ = [("code", ctypes.c_uint32), ("group", Group)]


class ReadAnswer(ctypes.Structure):
    _fields_ = [("code", ctypes.c_uint32), ("granted", ctypes.c_uint32)]


class Delivery(ctypes.Structure):
    _fields_ = [("code", ctypes.c_uint32), ("place", ctypes.c_uint32), ("length", ctypes.c_uint32)]


def load(path):
    """The library with the signatures that this host uses. ctypes checks none of them."""
    assert ctypes.sizeof(Group) == 2288 and ctypes.sizeof(Answer) == 2296
    u32, size, data = ctypes.c_uint32, ctypes.c_size_t, ctypes.c_char_p
    gate = ctypes.CDLL(path)
    for name, result, parameters in [
        ("ferrulebee_fresh", Answer, [u32]),
        ("ferrulebee_request_at", u32, [ctypes.POINTER(Group), u32, u32]),
        ("ferrulebee_close", Answer, [Group]),
        ("ferrulebee_read", ReadAnswer, [Group, u32, u32]),
        ("ferrulebee_deliver", Delivery, [Group, u32, data, size, data, size]),
        ("judge", ctypes.c_uint64, [data, size, data, size, u32]),
    ]:
        function = getattr(gate, name)
        function.restype, function.argtypes = result, parameters
    return gate


def store(sheets):
    """A store of these sheets: total length, count, (offset, length) each, bytes."""
    at, table, bytes_ = 8 + 8 * len(sheets), b"", b""
    for sheet in sheets:
        table += struct.pack("<II", at + len(bytes_), len(sheet))
        bytes_ += sheet
    return struct.pack("<II", at + len(bytes_), len(sheets)) + table + bytes_


def unpack(delivery):
    """The sheets of a delivery by their number."""
    count, total = struct.unpack_from("<II", delivery)
    assert total == len(delivery)
    sheets, at = {}, 8
    for _ in range(count):
        number, length = struct.unpack_from("<II", delivery, at)
        sheets[number] = delivery[at + 8 : at + 8 + length]
        at += 8 + length
    assert at == total
    return sheets


def receive(gate, group, model, sheets, room):
    """The delivery's sheets, or the refusal in words."""
    out = ctypes.create_string_buffer(room)
    answer = gate.ferrulebee_deliver(group, model, sheets, len(sheets), out, room)
    if answer.code:
        return f"refused {answer.code} at {answer.place}"
    return unpack(out.raw[: answer.length])


def strip(number, *events):
    """A carrier's events, each a tick and a kind, as the judge takes them: four bytes a word."""
    assert number < 512 and all(tick < 2**20 and kind < 8 for tick, kind in events)
    return b"".join(struct.pack("<I", tick * 4096 + kind * 512 + number) for tick, kind in events)


def judged(gate, model, sheet, now):
    """The judge's answer in words."""
    assert 0 <= now < 2**32
    answer = gate.judge(model, len(model), sheet, len(sheet), now)
    code, value = answer >> 32, answer & 0xFFFFFFFF
    if code in PLACED:
        return f"refused {code} at {value}"
    return VERDICTS[code].format(value, now=now) if code in VERDICTS else f"refused {code}"


def main(arguments):
    if len(arguments) != 1 or "--help" in arguments:
        print(__doc__.strip())
        return 0 if "--help" in arguments else 2
    try:
        gate = load(arguments[0])
    except OSError as why:
        print(f"host.py: can't load the library: {why}", file=sys.stderr)
        return 2

    group = gate.ferrulebee_fresh(3).group
    for tick in [[(SJ, 7), (SA, 0)], [(LA, 2), (SJ, 9)], [(SL, 7), (SA, 1)]]:
        for kind, number in tick:
            print("request", kind, number, "->", gate.ferrulebee_request_at(group, kind, number))
        group = gate.ferrulebee_close(group).group
    print("a second leave ->", gate.ferrulebee_request_at(group, LL, 7))

    for model in (7, 9, 64):
        answers = [gate.ferrulebee_read(group, model, sheet) for sheet in range(3)]
        print("model", model, "reads", [(answer.code, answer.granted) for answer in answers])

    sheets = store([b"plot 1: 4.2", b"plot 2: 3.9", b"plot 3: 5.0"])
    print("model 9 receives", receive(gate, group, 9, sheets, 100))
    print("model 7 receives", receive(gate, group, 7, sheets, 100))
    print("into 10 bytes:", receive(gate, group, 9, sheets, 10))
    print("from two sheets:", receive(gate, group, 9, store([b"a", b"b"]), 100))

    stayed, left = strip(7, (1, SJ)), strip(7, (1, SJ), (3, SL))
    print("model 7, sheet 0, tick 2:", judged(gate, stayed, strip(0, (1, SA)), 2))
    print("model 7, sheet 0, tick 3:", judged(gate, left, strip(0, (1, SA)), 3))
    print("model 7, sheet 1, tick 3:", judged(gate, left, strip(1, (3, SA)), 3))
    return 0


if __name__ == "__main__":
    sys.exit(main(sys.argv[1:]))
