#!/usr/bin/env python3
"""A desk in Python, by libcut.so alone, as any language that is not C makes the calls on a run: the run is bytes that nobody here takes apart. The
site, its traffic and what is written are those of c/desk.c. tools/installed.sh runs it with the library's file; it exits 1 if a value is not as it
must be.
"""
import ctypes
import sys
from ctypes import c_char_p, c_size_t, c_uint8, c_uint16, c_uint32, c_void_p

RUN_BYTES, LENT_BYTES = 4212, 2034
JOURNAL = "28 09 00 0A 00 14 00 1E 01 04 41 00 11 05 02 02 88 00 0A 07 4A 00 42 00 48 00"
RECORDING = "28 01 80 02 00 04 80 01 00 18 00 00 00 1E 02 02"
PAGE = b"Z1 F    2      4\nZ2 F    1     24\nZ3 -    0     30\nL13     1      2\nT             60\n"


class Received(ctypes.Structure):
    _fields_ = [("refusal", c_uint8), ("remaining", c_uint8)]


class Written(ctypes.Structure):
    _fields_ = [("refusal", c_uint8), ("total", c_uint32), ("position", c_size_t), ("written", c_size_t)]


def must(holds, what):
    if not holds:
        sys.exit(f"not as it must be: {what}")


def calls(path):
    """The calls of the library, each with the types that the headers give it."""
    library = ctypes.CDLL(path)
    zone, cars, lent = c_uint8, c_uint8, [c_void_p, c_void_p, c_size_t]
    types = {
        "cut_version": (c_uint32, []),
        "cut_refusal_words": (c_char_p, [c_uint8]),
        "cut_open": (c_uint8, [c_void_p, c_uint8, c_uint8, c_void_p, c_size_t]),
        "cut_send": (c_uint8, [c_void_p, zone, zone, cars]),
        "cut_receive": (Received, [c_void_p, zone, zone]),
        "cut_start": (c_uint8, [c_void_p, zone]),
        "cut_enter": (c_uint8, [c_void_p, zone, cars]),
        "cut_leave": (c_uint8, [c_void_p, zone, cars]),
        "cut_record": (Written, lent),
        "cut_page": (Written, lent),
        "cut_write": (Written, lent),
    }
    for name, (answer, arguments) in types.items():
        call = getattr(library, name)
        call.restype, call.argtypes = answer, arguments
    return library


def traffic(cut, run):
    """The calls of c/desk.c up to the last request; those that are refused leave every byte of the run as it was."""
    must(cut.cut_send(run, 1, 2, 4) == 0, "1 hands 4 cars to 2")
    got = cut.cut_receive(run, 1, 2)
    must((got.refusal, got.remaining) == (0, 0), "2 takes them, and nothing remains")
    must(cut.cut_send(run, 3, 2, 5) == 0 and cut.cut_send(run, 1, 3, 2) == 0, "3 hands 5 cars to 2, and 1 hands 2 to 3")
    must(cut.cut_start(run, 2) == 0, "2 starts")
    before = bytes(run)
    must(cut.cut_start(run, 1) == 11, "a second start is refused")
    must(cut.cut_send(run, 2, 1, 25) == 7, "25 of 24 cars are refused")
    must(cut.cut_receive(run, 2, 3).refusal == 9, "an empty line is refused")
    must(cut.cut_enter(run, 1, 1) == 15 and cut.cut_leave(run, 1, 1) == 15, "edition 1 has no gates")
    must(cut.cut_open(run, 1, 9, None, 0) == 2, "9 zones are refused")
    must(bytes(run) == before, "what is refused changes no byte of the run")
    must(cut.cut_send(run, 2, 3, 7) == 0, "2 hands 7 cars to 3")
    must(cut.cut_receive(run, 2, 3).refusal == 0 and cut.cut_receive(run, 1, 3).refusal == 0, "3 takes them and the 2 cars")
    must(cut.cut_receive(run, 2, 1).refusal == 0, "1 takes the request")


def written(cut, run):
    """What is written of the run, and what is lent too short or not written stays as it was."""
    out = ctypes.create_string_buffer(b"?" * LENT_BYTES, LENT_BYTES)
    before = bytes(run)
    wanted = [(cut.cut_record, bytes.fromhex(RECORDING), 60), (cut.cut_page, PAGE, 0), (cut.cut_write, bytes.fromhex(JOURNAL), 0)]
    for call, made, total in wanted:
        ctypes.memset(out, ord("?"), LENT_BYTES)
        short = call(run, out, len(made) - 1)
        must((short.refusal, short.written, out.raw) == (14, 0, b"?" * LENT_BYTES), "a byte too few is refused, and nothing is written")
        whole = call(run, out, LENT_BYTES)
        must((whole.refusal, whole.total, whole.position, whole.written) == (0, total, 0, len(made)), "it is written")
        must(out.raw == made.ljust(LENT_BYTES, b"?"), "as worked out by hand, and nothing behind it")
    must(bytes(run) == before, "writing changes no byte of the run")


def gates(cut, run):
    """An empty site of edition 3, whose cars come and go by a gate."""
    must(cut.cut_open(run, 3, 2, None, 0) == 0, "an empty site opens")
    must(cut.cut_enter(run, 1, 3) == 0 and cut.cut_leave(run, 1, 3) == 0, "3 cars drive in and out")
    must(cut.cut_leave(run, 1, 1) == 7, "no car is left")


def main():
    cut = calls(sys.argv[1])
    must(cut.cut_version() // 10000 == 3, "the library is of major version 3")
    must(cut.cut_refusal_words(9) == b"the line is empty", "the words of 9")
    run = ctypes.create_string_buffer(RUN_BYTES)
    must(cut.cut_open(run, 1, 3, (c_uint16 * 3)(10, 20, 30), 3) == 0, "the site opens")
    traffic(cut, run)
    written(cut, run)
    gates(cut, run)


if __name__ == "__main__":
    main()
