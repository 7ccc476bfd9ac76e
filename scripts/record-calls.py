#!/usr/bin/env python3
"""record-calls.py ORACLE: writes crates/calls/stdin and stdout, the script of `calls` that the gate replays and what it must answer.

The lines: the published vectors of SHA-256; the Interface Specification's worked tree, rebuilt, asked and exchanged; document 01's examples that
are not starred, at the limits and one past them; two releases and the lines between them; a sound store with each of its bits turned; sound stores that no history makes, and
lies whose digests are right; and a random history. A line that begins with # is a heading, and is answered as any line that is none.
The answers are the oracle's (ORACLE, built by scripts/oracle.sh); those that are published are compared with what is published."""
import hashlib
import pathlib
import subprocess
import sys

EDITION = 1
lines = []
published = {}


def say(*new):
    lines.extend(new)


def answers(line, answer):
    published[len(lines)] = answer
    say(line)


def hexed(data):
    return data.hex() or "-"


# ---- published vectors

say("# SHA-256, published vectors; above 65,536 bytes 10")
for message, digest in [
    (b"", "e3b0c44298fc1c149afbf4c8996fb92427ae41e4649b934ca495991b7852b855"),
    (b"abc", "ba7816bf8f01cfea414140de5dae2223b00361a396177a9cb410ff61f20015ad"),
    (b"abcdbcdecdefdefgefghfghighijhijkijkljklmklmnlmnomnopnopq", "248d6a61d20638b8e5c026930c3e6039a33ce45964ff2167f6ecedd419db06c1"),
    (
        b"abcdefghbcdefghicdefghijdefghijkefghijklfghijklmghijklmnhijklmnoijklmnopjklmnopqklmnopqrlmnopqrsmnopqrstnopqrstu",
        "cf5b16a778af8380036ce59e7b0492370b249b11e8f07a51afac45037afee9d1",
    ),
    (b"a" * 55, "9f4390f8d30c2dd92ec9f095b65e2b9ae9b0a925a5258e241c9f1e910f734318"),
    (b"a" * 56, "b35439a4ac6f0948b6d6f9e3c6af0f5f590ce20f1bde7090ef7970686ec6738a"),
    (b"a" * 64, "ffe054fe7ae0cb6dc65c3af9b61d5209f439851db43d0ba5997337df154668eb"),
    (b"a" * 119, "31eba51c313a5c08226adf18d4a359cfdfd8d2e816b13f4af952f7ea6584dcfb"),
    (b"a" * 120, "2f3d335432c70b580af0e8e1b3674a7c020d683aa5f73aaaedfdc55af904c21c"),
    (b"a" * 65_536, "bf718b6f653bebc184e1479f1935b8da974d701b893afcf49e701f3e2f9f9c5a"),
]:
    answers("hash " + hexed(message), "0 " + digest)
answers("hash " + hexed(b"a" * 65_537), "10 " + "00" * 32)

# ---- the worked tree of the Interface Specification


def record(kind, body=b""):
    return bytes([kind * 32, len(body)]) + body


empty, fork = record(0), record(1)


def labeled(label, child):
    return record(2, label) + child


leaf = lambda value: record(3, value)
pruned = lambda digest: record(4, bytes.fromhex(digest))

root = "eb5c5b2195e62d996b84c9bcc8259d19a83786a2f59e0878cec84c811f669aa0"
hidden = fork + labeled(b"x", leaf(b"hello")) + empty
whole = (
    fork + fork + labeled(b"a", fork + hidden + labeled(b"y", leaf(b"world"))) + labeled(b"b", leaf(b"good"))
    + fork + labeled(b"c", empty) + labeled(b"d", leaf(b"morning"))
)
cut = (
    fork + fork + labeled(b"a", fork + pruned("1b4feff9bef8131788b0c9dc6dbad6e81e524249c879e9f10f71ce3749f5a638") + labeled(b"y", leaf(b"world")))
    + labeled(b"b", pruned("7b32ac0c6ba8ce35ac82c255fc7906f7fc130dab2a090f80fe12f9c2cae83ba6"))
    + fork + pruned("ec8324b8a1f1ac16bd2e806edba78006479c9877fed4eb464a25485465af601d") + labeled(b"d", leaf(b"morning"))
)
say("# hash trees: the specification's worked tree and its parts, rebuilt")
for tree, digest in [
    (empty, "4e3ed35c4e2d1ee89996483fb6260a64cffb6c47dbab216e7930e82f8190d120"),
    (hidden, "1b4feff9bef8131788b0c9dc6dbad6e81e524249c879e9f10f71ce3749f5a638"),
    (leaf(b"good"), "7b32ac0c6ba8ce35ac82c255fc7906f7fc130dab2a090f80fe12f9c2cae83ba6"),
    (labeled(b"c", empty), "ec8324b8a1f1ac16bd2e806edba78006479c9877fed4eb464a25485465af601d"),
    (whole, root),
    (cut, root),
]:
    answers("rebuild " + tree.hex(), "0 " + digest)
answers("rebuild " + leaf(b"hello").hex()[:-2], "9 " + "00" * 32)
say("# asked, with its parts cut: a, b, d are found; aa, 0 and e are absent; c and bb are hidden from it")
for key, reading in [("a", "found"), ("b", "found"), ("d", "found"), ("aa", "absent"), ("0", "absent"), ("e", "absent"), ("c", "unknown"), ("bb", "unknown")]:
    answers(f"ask {cut.hex()} {key.encode().hex()}", "0 " + reading)
answers(f"ask {(fork + leaf(b'x') + empty).hex()} 61", "11 refused 0 0")
say("# merged with its cut form, it comes back; beside Empty alone it is refused")
answers("room 200", "ok")
answers(f"merge {cut.hex()} {whole.hex()}", f"0 {len(whole)} {whole.hex()} 0")
answers(f"merge {whole.hex()} {empty.hex()}", "15 0 - 0")
say("# in CBOR, as the specification gives it, and back; a tag in front, a longer head and an array without its length are refused")
cbor = (
    "8301830183024161830183018302417882034568656c6c6f810083024179820345776f726c6483024162820344676f6f64"
    "8301830241638100830241648203476d6f726e696e67"
)
answers(f"tocbor {whole.hex()}", f"0 {len(cbor) // 2} {cbor} 0")
answers(f"fromcbor {cbor}", f"0 {len(whole)} {whole.hex()} 0")
answers("tocbor 400161600107", "0 8 8302416182034107 0")
answers("fromcbor 8302416182034107", "0 6 400161600107 0")
for other in ["d9d9f7" + cbor, "830258016182034107", "9f008100ff", cbor[:-2], cbor + "00"]:
    answers(f"fromcbor {other}", "12 0 - 0")
answers("tocbor 40", "9 0 - 0")
for line, room in [(f"tocbor {whole.hex()}", len(cbor) // 2), (f"fromcbor {cbor}", len(whole))]:
    answers(f"room {room - 1}", "ok")
    answers(line, "6 0 - 0")
    answers(f"room {room}", "ok")
    answers(line, f"0 {room} ")
say("# in parts, one of them empty; a kind that is none is certain at once, and stays")
answers("part " + whole.hex()[:20], "0")
answers("part -", "0")
answers("end", "9 " + "00" * 32)
answers("part " + whole.hex()[20:], "0")
answers("end", "0 " + root)
answers("part 00", "9")
answers("begin", "ok")
answers("part a0", "9")
answers("part " + whole.hex(), "9")

# ---- document 01's examples that are not starred

say("# capacities 0, 1, 1,024, 1,025, and buffers one byte off")
for length, capacity, number in [(8, 0, 8), (158, 1, 0), (153_608, 1024, 0), (153_608, 1025, 8), (157, 1, 8), (159, 1, 8)]:
    answers(f"buffer {length}", "ok")
    answers(f"create {capacity}", str(number))
say("# keys of 48 and 49 bytes, values of 64 and 65")
key, value = b"k" * 48, b"\7" * 64
answers("buffer 158", "ok")
answers("create 1", "0")
answers(f"insert {key.hex()}6b -", "2")
answers(f"insert - {value.hex()}07", "3")
answers(f"insert {key.hex()} {value.hex()}", "0")
say(f"get {key.hex()}")
answers(f"get {key.hex()}6b", "2 0 0 0 0")
say("# a full store: another value for a is accepted, a new key is not; after a delete it is")
answers("buffer 308", "ok")
answers("create 2", "0")
for line, number in [("insert 61 01", 0), ("insert 62 02", 0), ("insert 61 03", 0), ("insert 63 04", 5), ("delete 61", 0), ("insert 63 04", 0)]:
    answers(line, str(number))
answers("count", "0 2")
say("# build logs on a store of one slot: insert a; insert b, modify b, delete a; each fault, and a byte after a good record")
answers("buffer 158", "ok")
answers("create 1", "0")
for log, answer in [
    ("-", "0 0 0"), ("01026107", "0 0 0"), ("0102620841026209810061", "0 1 1"), ("01026107", "0 0 0"),
    ("c1026107", "13 0 0"), ("31" + "00" + "61" * 49, "13 0 0"), ("018261" + "07" * 65, "13 0 0"), ("81026107", "13 0 0"), ("01036107", "13 0 0"),
    ("010261", "13 0 0"), ("01", "13 0 0"), ("010261070", "?"), ("0102610700", "13 0 0"), ("8100610102610301", "13 0 0"),
    ("3000" + "61" * 48, "0 1 0"), ("0180" + "61" + "07" * 64, "0 0 0"),
]:
    answers("replay " + log, answer)
    say("sum")
answers("poke 0 11", "ok")
answers("replay 01", "1 0 0")
say("# value_range a to c: 22 bytes of output do, 21 are too few")
answers("buffer 458", "ok")
answers("create 3", "0")
for n, k in enumerate("abc", 1):
    answers(f"insert {k.encode().hex()} 0{n}", "0")
answers("room 22", "ok")
answers("vrange 61 63", "0 22 20004001616001012000400162600102400163600103 0")
answers("room 21", "ok")
answers("vrange 61 63", "6 0 - 0")
say("# a, b, c, d inserted upwards and downwards: the same entries, another root digest")
for order in ["abcd", "dcba"]:
    say("buffer 608", "create 4")
    for k in order:
        say(f"insert {k.encode().hex()} {k.encode().hex()}")
    say("root", "first", *[f"next {k.encode().hex()}" for k in "abcd"])

say("# two releases, the other being the old: at the start it is none; a, b against b, c; 5 bytes of output are too few")
answers("room 200", "ok")
answers("diff", "1 0 - 0")
answers("swap", "ok")
answers("store", "-")
answers("buffer 308", "ok")
answers("create 2", "0")
answers("insert 61 01", "0")
answers("insert 62 02", "0")
answers("swap", "ok")
answers("buffer 458", "ok")
answers("diff", "1 0 - 0")
answers("create 3", "0")
answers("diff", "0 4 41614162 0")
answers("insert 63 04", "0")
answers("insert 62 03", "0")
answers("diff", "0 6 4161c1628163 0")
answers("room 5", "ok")
answers("diff", "6 0 - 0")
say("# the other way round; the empty key is a line of one byte; the same map in another store and order has no line")
answers("room 6", "ok")
answers("swap", "ok")
answers("diff", "0 6 8161c1624163 0")
answers("delete 61", "0")
answers("insert - 07", "0")
answers("diff", "0 5 80c1624163 0")
for line in ["delete -", "insert 62 03", "swap", "delete 63"]:
    answers(line, "0" if line != "swap" else "ok")
answers("room 0", "ok")
answers("diff", "0 0 - 0")
answers("insert 62 0300", "0")
answers("diff", "6 0 - 0")

# ---- stores written by hand


def digest_of(*parts):
    return hashlib.sha256(b"".join(parts)).digest()


def tag(text):
    return bytes([len(text)]) + text.encode()


def bits(*fields):
    number = width = 0
    for value, size in fields:
        number, width = number << size | value, width + size
    return number.to_bytes(width // 8, "big")


class Written:
    """A store of capacity 5, slot by slot, with the digests that its links give it."""

    def __init__(self, live, top, free):
        self.head = bits((EDITION, 4), (5, 11), (live, 11), (top, 11), (free, 11), (0, 16))
        self.slots = {}

    def free(self, slot, after):
        self.slots[slot] = bits((0, 2), (after, 11), (0, 35)) + bytes(144)
        return self

    def entry(self, slot, name, value, red=0, left=0, right=0):
        digest = digest_of(tag("ic-hashtree-labeled"), name, digest_of(tag("ic-hashtree-leaf"), value))
        if right:
            digest = digest_of(tag("ic-hashtree-fork"), digest, self.slots.get(right, bytes(150))[118:])
        if left:
            digest = digest_of(tag("ic-hashtree-fork"), self.slots.get(left, bytes(150))[118:], digest)
        head = bits((1, 1), (red, 1), (left, 11), (right, 11), (len(name), 6), (len(value), 7), (0, 11))
        self.slots[slot] = head + name.ljust(48, b"\0") + value.ljust(64, b"\0") + digest
        return self

    def bytes(self):
        return self.head + b"".join(self.slots.get(n, bytes(150)) for n in range(1, 6))


def judged(what, store, sound):
    say("# " + what)
    answers("load " + store.bytes().hex(), "ok")
    answers("count", "0 " if sound else "1 0")


def chain(free, *after):
    store = Written(0, 0, free)
    for slot, link in after:
        store.free(slot, link)
    return store


def two(name=b"a", red=1, top_red=0, left=5, right=0, live=2):
    return Written(live, 3, 4).free(4, 1).free(1, 2).free(2, 0).entry(5, name, b"1", red).entry(3, b"b", b"2", top_red, left, right)


judged("free chain 3 1 5 2 4: sound", chain(3, (3, 1), (1, 5), (5, 2), (2, 4), (4, 0)), True)
judged("a free chain that bites its tail", chain(3, (3, 1), (1, 5), (5, 2), (2, 4), (4, 3)), False)
judged("one that leaves slot 4 out", chain(3, (3, 1), (1, 5), (5, 2), (2, 0), (4, 3)), False)
judged("one that leaves the store", chain(3, (3, 1), (1, 5), (5, 2), (2, 6), (4, 3)), False)
judged("a in slot 5 under b in slot 3, free chain 4 1 2: sound", two(), True)
judged("live count 1 of 2", two(live=1), False)
judged("live count 3 of 2", two(live=3), False)
judged("one key twice", two(name=b"b"), False)
judged("a red right child", two(name=b"c", left=0, right=5), False)
judged("paths with unlike black nodes", two(name=b"c", red=0, left=0, right=5), False)
judged("a red root", two(top_red=1), False)
judged("a root under itself", two(left=3), False)
twined = two()
twined.entry(5, b"a", b"1", 1, 3, 0).entry(3, b"b", b"2", 0, 5, 0)
judged("two entries, each under the other", twined, False)

say("# a sound store, b over red a and a free slot: each of its bits turned is refused")
answers("buffer 458", "ok")
answers("create 3", "0")
answers("insert 61 31", "0")
answers("insert 62 32", "0")
answers("count", "0 2")
oracle = sys.argv[1]


def ask(script):
    return subprocess.run([oracle, "calls"], input=("\n".join(script) + "\n").encode(), capture_output=True, check=True).stdout.decode().splitlines()


store = bytes.fromhex(ask(["buffer 458", "create 3", "insert 61 31", "insert 62 32", "store"])[-1])
for at, byte in enumerate(store):
    for bit in range(8):
        say(f"poke {at} {byte ^ 128 >> bit:02x}")
        answers("count", "1 0")
    say(f"poke {at} {byte:02x}")
answers("count", "0 2")

say("# a random history")
say(*subprocess.run([oracle, "script", "7", "400"], capture_output=True, check=True).stdout.decode().splitlines())

# ---- what must be answered

told = ask(lines)
for n, answer in published.items():
    if not told[n].startswith(answer):
        sys.exit(f"line {n + 1}, {lines[n][:80]}: published {answer[:80]}, the oracle says {told[n][:80]}")
folder = pathlib.Path(__file__).resolve().parent.parent / "crates" / "calls"
(folder / "stdin").write_text("\n".join(lines) + "\n")
(folder / "stdout").write_text("\n".join(told) + "\n")
print(f"{len(lines)} lines, {len(published)} of them held to what is published or must be")
