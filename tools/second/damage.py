#!/usr/bin/env python3
"""Changes, drops or doubles a byte or a line of standard input, at random, the same for the same number.

    tools/second/damage.py SEED < CERTIFICATE.txt
"""

import random
import sys

LETTERS = b"0123456789abcdefghPNBRQKpnbrqkw/- \n"


def damaged(data, chance):
    if chance.random() < 0.5:
        at = chance.randrange(len(data))
        return data[:at] + chance.choice([b"", data[at:at + 1] * 2, bytes([chance.choice(LETTERS)])]) + data[at + 1:]
    lines = data.splitlines(keepends=True)
    at = chance.randrange(len(lines))
    lines[at:at + 1] = chance.choice([[], [lines[at]] * 2, [chance.choice(lines)]])
    return b"".join(lines)


if __name__ == "__main__":
    sys.stdout.buffer.write(damaged(sys.stdin.buffer.read(), random.Random(int(sys.argv[1]))))
