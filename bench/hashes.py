#!/usr/bin/env python3
"""Prints the hashes of some values, worked out from the definition alone.

Some of the numbers stand in the tests of store_schedules, and the remainders that they leave in
crates/sql_shell/stdout and examples/hashes.spec. A number is two words of its 64 bits in two's complement, the low one first,
with length 8; a text is its bytes, filled up with zeros to whole words, with its length in bytes.
"""

M = 0xFFFFFFFF


def rot(x, k):
    return ((x << k) | (x >> (32 - k))) & M


def mix(a, b, c):
    a = (a - c) & M; a ^= rot(c, 4); c = (c + b) & M
    b = (b - a) & M; b ^= rot(a, 6); a = (a + c) & M
    c = (c - b) & M; c ^= rot(b, 8); b = (b + a) & M
    a = (a - c) & M; a ^= rot(c, 16); c = (c + b) & M
    b = (b - a) & M; b ^= rot(a, 19); a = (a + c) & M
    c = (c - b) & M; c ^= rot(b, 4); b = (b + a) & M
    return a, b, c


def final(a, b, c):
    c ^= b; c = (c - rot(b, 14)) & M
    a ^= c; a = (a - rot(c, 11)) & M
    b ^= a; b = (b - rot(a, 25)) & M
    c ^= b; c = (c - rot(b, 16)) & M
    a ^= c; a = (a - rot(c, 4)) & M
    b ^= a; b = (b - rot(a, 14)) & M
    c ^= b; c = (c - rot(b, 24)) & M
    return (b << 32) | c


def words_hash(length, words):
    a = b = c = (0x9E3779B9 + length + 3923095) & M
    a = (a + 0x7A5B2236) & M
    b = (b + 0x7996DCFD) & M
    a, b, c = mix(a, b, c)
    groups = [words[i:i + 3] for i in range(0, len(words), 3)]
    for place, group in enumerate(groups):
        x, y, z = (group + [0, 0])[:3]
        a = (a + x) & M; b = (b + y) & M; c = (c + z) & M
        if place + 1 < len(groups):
            a, b, c = mix(a, b, c)
    return final(a, b, c)


def number_hash(n):
    bits = n & 0xFFFFFFFFFFFFFFFF
    return words_hash(8, [bits & M, bits >> 32])


def text_hash(text):
    filled = text + b"\0" * (-len(text) % 4)
    words = [int.from_bytes(filled[i:i + 4], "little") for i in range(0, len(filled), 4)]
    return words_hash(len(text), words)


def key_hash(hashes):
    acc = 0
    for h in hashes:
        acc ^= (h + 0x49A0F4DD15E5A8E3 + (acc << 54) + (acc >> 7)) & 0xFFFFFFFFFFFFFFFF
    return acc


for n in (0, 1, -1, 42, 2147483647, -2147483648, 9223372036854775807, -9223372036854775808):
    print(n, number_hash(n))
for text in (b"", b"a", b"abc", b"abcd", b"partition", b"twelve bytes", b"thirteen byte", b"a text of more than two dozen bytes"):
    print(repr(text.decode()), text_hash(text))
print("key (1, 'a')", key_hash([number_hash(1), text_hash(b"a")]))
print("key (-1)", key_hash([number_hash(-1)]))
