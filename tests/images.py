#!/usr/bin/env python3
"""One image of each length, 512 to 2,560 bytes, and one of a sample above level 0, worked out from the rules alone (RULES: Image), as hex.

The gate compares this with what crates/images prints: the layout, and the choice of the level and of the cells, are checked by
a program that shares nothing with the library.
"""

SETTINGS = dict(n=200000, p=2000003, a=1234567, b=89, capacity=504)


def little(value, size):
    return value.to_bytes(size, "little")


def block(content):
    body = content + bytes(508 - len(content))
    words = [int.from_bytes(body[i : i + 2], "little") for i in range(0, 508, 2)]
    plain = sum(words) % 65535
    weighted = sum((255 - i) * w for i, w in enumerate(words, start=1)) % 65535
    return body + little(plain, 2) + little(weighted, 2)


def passing(level, last):
    """The cells of 1..last that pass: each one's hash is held to the size of the region."""
    a, b, p = (SETTINGS[name] for name in "abp")
    return [x for x in range(1, last + 1) if (a * x + b) % p < p // 2**level]


def sample(last):
    """The lowest level at which the passing cells of 1..last are at most the capacity, and those cells."""
    level = 0
    while len(passing(level, last)) > SETTINGS["capacity"]:
        level += 1
    return level, passing(level, last)


def image(level, cells):
    s = SETTINGS
    head = b"POT1" + b"".join(little(s[name], 4) for name in ("n", "p", "a", "b"))
    blocks = [block(head + little(s["capacity"], 2) + little(level, 2) + little(len(cells), 2))]
    for number, start in enumerate(range(0, len(cells), 126), start=1):
        part = cells[start : start + 126]
        blocks.append(block(little(number, 2) + little(len(part), 2) + b"".join(little(c, 4) for c in part)))
    return b"".join(blocks)


for last in (0, 100, 200, 300, 504, 200000):
    print(f"cells seen: {last}")
    data = image(*sample(last))
    for at in range(0, len(data), 32):
        print(data[at : at + 32].hex())
