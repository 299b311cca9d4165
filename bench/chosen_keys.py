#!/usr/bin/env python3
"""Writes rows of csv whose keys were chosen so that a table under fixed keys finds them in one place.

usage: bench/chosen_keys.py SHAPE ROWS [plain] >FILE

two     two numbers, a and b: b is the multiplier of FoldHasher as the code has it, so that one factor is 0
three   three numbers, of which the last, c, is that one
mixed   a text, t, and that number, b
texts   a text, t, for a sink of texts: of 32 bytes, the third eight make the first factor 0
slots   a number, k, for a sink of numbers: the map that finds it by a hash of 32 bits looks for all of
        them from one group on, and up to 100,000 rows they have one tag too

Each row has a number v behind its keys, and no key comes twice. With `plain` the keys are others of the same form.
"""

import itertools
import sys

START = 0x243F6A8885A308D3
FACTOR = 0x9E3779B97F4A7C15
WORD = (1 << 64) - 1
LETTERS = "0123456789abcdefghijklmnopqrstuvwxyz"


def signed(word):
    return word - (1 << 64) if word >> 63 else word


def folded(a, b):
    product = a * b
    return product & WORD ^ product >> 64


def counted(number, length):
    """A number in letters, with so many of them."""
    return "".join(LETTERS[number // len(LETTERS) ** place % len(LETTERS)] for place in range(length))


# 24 letters, of which the last eight are the state of the hash behind the first 16, in a text of 32 bytes.
FRONT = "3ul5000000000000nJXrGFBd"

# An Int64 stands in a code from its highest byte on, with the sign turned; the hash reads a word from the lowest byte on.
FACTOR_KEY = signed(int.from_bytes(FACTOR.to_bytes(8, "little"), "big") ^ 1 << 63)


def slot(word):
    """The hash of 32 bits by which a map under no keys finds a mark."""
    hashed = folded(START ^ word, FACTOR ^ 16)
    return (hashed ^ hashed >> 32) & 0xFFFFFFFF


def words_of_one_slot(rows):
    """Words whose hashes have the same low bits, as many as tell groups of nine for so many rows, and the same tag where there are few.

    With y * c = high * 2^64 + low the difference of high and low is -y * c modulo 2^64 + 1. One that is 0 but for some middle bits of each half
    leaves the other bits of high and low alike, unless a carry goes on.
    """
    bits = max((rows // 9).bit_length(), 1)
    middle = 24 - bits if bits < 15 else 32 - bits
    mask = (1 << bits) - 1 | (0xFF000000 if bits < 15 else 0)
    inverse = pow(FACTOR ^ 16, -1, (1 << 64) + 1)
    for upper, lower in itertools.product(range(1 << middle), repeat=2):
        y = -((upper << 32 + bits) + (lower << bits)) * inverse % ((1 << 64) + 1)
        if y <= WORD and not slot(y ^ START) & mask:
            yield y ^ START


def keys_of(shape, rows, plain):
    """The names of the keys, and those of each row as it writes them."""
    last = [(row * 7919) % 1000003 if plain else FACTOR_KEY for row in range(rows)]
    if shape == "two":
        return "a,b", (f"{row},{last[row]}" for row in range(rows))
    if shape == "three":
        return "a,b,c", (f"{row % 1000},{row // 1000},{last[row]}" for row in range(rows))
    if shape == "mixed":
        return "t,b", (f"{counted(row, 8)},{last[row]}" for row in range(rows))
    if shape == "texts":
        front = FRONT[::-1] if plain else FRONT
        return "t", (front + counted(row, 8) for row in range(rows))
    if shape == "slots":
        words = (row * FACTOR & WORD for row in range(rows)) if plain else itertools.islice(words_of_one_slot(rows), rows)
        return "k", map(str, map(signed, words))
    sys.exit(f"chosen_keys: no shape {shape}")


def main():
    shape, rows, *more = sys.argv[1:] if len(sys.argv) > 2 else sys.exit(__doc__)
    head, keys = keys_of(shape, int(rows), more == ["plain"])
    lines = [f"{key},{row % 7}" for row, key in enumerate(keys)]
    if len(lines) < int(rows):
        sys.exit(f"chosen_keys: only {len(lines)} such keys are known")
    print("\n".join([head + ",v", *lines]))


if __name__ == "__main__":
    main()
