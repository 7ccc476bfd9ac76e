#!/usr/bin/env python3
"""cbor-by-others.py SCRIPT ANSWERS: holds the lines tocbor and fromcbor of a script of `calls`, and our answers to them, to a CBOR reader that others
wrote (cbor2; Debian's python3-cbor2).

Each CBOR that we wrote, it reads whole, as a hash tree, and its own writing of what it read, definite and shortest, is the same bytes. And of
each CBOR that was to be read: we took it exactly where it reads one lawful tree, at most 64 records deep, and writes the same bytes."""
import io
import sys

import cbor2

KINDS = {0: 1, 1: 3, 2: 3, 3: 2, 4: 2}


def lawful(value, depth=64):
    if depth == 0 or type(value) is not list or not value or type(value[0]) is not int or KINDS.get(value[0]) != len(value):
        return False
    kind = value[0]
    if kind == 1:
        return lawful(value[1], depth - 1) and lawful(value[2], depth - 1)
    if kind == 0:
        return True
    if type(value[1]) is not bytes or not (len(value[1]) == 32 if kind == 4 else len(value[1]) <= (48 if kind == 2 else 64)):
        return False
    return kind != 2 or lawful(value[2], depth - 1)


def same(data):
    """Whether another's reader finds one lawful tree and nothing more, and writes it as it stands."""
    stream = io.BytesIO(data)
    try:
        value = cbor2.CBORDecoder(stream).decode()
        return not stream.read() and lawful(value) and cbor2.dumps(value) == data
    except (cbor2.CBORDecodeError, cbor2.CBOREncodeError, ValueError, TypeError, OverflowError, LookupError, RecursionError):
        return False


wrote = took = refused = faults = 0
for line, answer in zip(open(sys.argv[1]), open(sys.argv[2])):
    words, told = line.split(), answer.split()
    if words[:1] not in (["tocbor"], ["fromcbor"]) or told == ["?"]:
        continue
    if words[0] == "tocbor":
        if told[0] != "0":
            continue
        wrote += 1
        right = same(bytes.fromhex(told[2]))
    else:
        data = b"" if words[1] == "-" else bytes.fromhex(words[1])
        took, refused = took + (told[0] != "12"), refused + (told[0] == "12")
        right = same(data) == (told[0] != "12")
    if not right:
        faults += 1
        print(f"{line[:120].strip()}: {answer[:120].strip()}", file=sys.stderr)
print(wrote, took, refused, faults)
