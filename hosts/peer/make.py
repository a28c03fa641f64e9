#!/usr/bin/python3
"""Makes crc.txt: what pymodbus, a peer that nobody here wrote, gives as the CRC of a million messages.

The messages come by SplitMix64 from a seed, as hosts/trials/src/chance.rs has it: a length of 0 to
300, then the bytes, eight from each number, the lowest first. A line is the digest of a thousand
CRCs, by FNV-1a over their two bytes as they are sent. Needs Debian's python3-pymodbus.
"""
from pymodbus.utilities import computeCRC

SEED = 9
MOST = 300
LINES = 1000
EACH = 1000
WORD = (1 << 64) - 1


def chance(seed):
    while True:
        seed = (seed + 0x9E3779B97F4A7C15) & WORD
        mixed = seed
        mixed = ((mixed ^ (mixed >> 30)) * 0xBF58476D1CE4E5B9) & WORD
        mixed = ((mixed ^ (mixed >> 27)) * 0x94D049BB133111EB) & WORD
        yield mixed ^ (mixed >> 31)


def message(numbers):
    length = next(numbers) % (MOST + 1)
    words = [next(numbers).to_bytes(8, "little") for _ in range((length + 7) // 8)]
    return b"".join(words)[:length]


def main():
    numbers = chance(SEED)
    for _ in range(LINES):
        digest = 0xCBF29CE484222325
        for _ in range(EACH):
            # pymodbus gives the two bytes as they are sent, the first one highest
            for byte in computeCRC(message(numbers)).to_bytes(2, "big"):
                digest = ((digest ^ byte) * 0x100000001B3) & WORD
        print(f"{digest:016x}")


main()
