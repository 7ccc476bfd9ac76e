#!/usr/bin/env python3
"""verify.py WITNESS [DIGEST]: the root digest that a witness rebuilds to, by Python's own SHA-256 and nothing of ours.
Prints what it shows in order, then the digest. Status 0 if it is DIGEST, or none was given; 1 if not, or if WITNESS is malformed."""
import hashlib, sys

def tagged(tag, *parts):  # SHA-256 of the tag, after one byte of its length, and of what hangs below
    return hashlib.sha256(bytes([len(tag)]) + tag + b"".join(parts)).digest()

def tree(w, at=0, depth=1):  # the digest of the tree at a place, and the place after it
    kind, length = w[at] >> 5, (w[at] & 31) << 8 | w[at + 1]
    own, at = w[at + 2 : at + 2 + length], at + 2 + length
    most = {0: 0, 1: 0, 2: 48, 3: 64, 4: 32}[kind]
    if len(own) != length or length > most or kind == 4 and length != 32 or depth > 64: raise ValueError("no record")
    if kind >= 2: print(["", "", "name ", "value ", "hidden "][kind] + (ascii(own)[2:-1] if kind == 2 else own.hex()))
    if kind == 0: return tagged(b"ic-hashtree-empty"), at
    if kind == 3: return tagged(b"ic-hashtree-leaf", own), at
    if kind == 4: return own, at
    left, at = tree(w, at, depth + 1)
    if kind == 2: return tagged(b"ic-hashtree-labeled", own, left), at
    right, at = tree(w, at, depth + 1)
    return tagged(b"ic-hashtree-fork", left, right), at

try:
    witness = open(sys.argv[1], "rb").read()
    digest, end = tree(witness)
    if end != len(witness): raise ValueError("more bytes after the tree")
except (ValueError, KeyError, IndexError) as fault:
    sys.exit(f"{sys.argv[1]} is no witness: {fault}")
print("root digest", digest.hex())
sys.exit(len(sys.argv) > 2 and digest.hex() != sys.argv[2].lower())
