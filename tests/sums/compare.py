#!/usr/bin/python3
"""Compares target/bin/sumcases with crcmod and with sums.pl (Digest::CRC) on the same byte strings. Run by `run`, at the repository's root.

The byte strings: the published check values' "123456789"; every length from 0 to 300, four times with random bytes; one
length of zeros and one of 0xFF for each ten; every string of one byte and every string of two; random strings of three
bytes and of 300 to 3000. Over the strings of two bytes CRC-8 meets every register with every byte, and both check sums
use each entry of their tables in both halves of a byte. The random bytes are the same in each run.
"""
import random
import subprocess
import sys

import crcmod
import crcmod.predefined

CHECK = b"123456789"
CHECK_SUMS = (0xFB, 0x4B37)
SEED = 20
# the most bytes that sumcases reads
MOST_INPUT = 400_000


def byte_strings():
    draw = random.Random(SEED)
    yield CHECK
    for length in range(301):
        for _ in range(4):
            yield draw.randbytes(length)
    for length in range(0, 301, 10):
        yield bytes(length)
        yield b"\xff" * length
    for byte in range(256):
        yield bytes([byte])
    for number in range(65_536):
        yield number.to_bytes(2, "big")
    for _ in range(400):
        yield draw.randbytes(3)
    for _ in range(100):
        yield draw.randbytes(draw.randint(300, 3000))


def by_crcmod(cases):
    crc8 = crcmod.mkCrcFun(0x107, initCrc=0xFF, rev=False, xorOut=0)
    crc16 = crcmod.predefined.mkCrcFun("modbus")
    return [(crc8(case), crc16(case)) for case in cases]


def batches(cases):
    """The records of the byte strings, joined to inputs of at most MOST_INPUT bytes."""
    batch = bytearray()
    for case in cases:
        if len(batch) + 2 + len(case) > MOST_INPUT:
            yield bytes(batch)
            batch.clear()
        batch += len(case).to_bytes(2, "big") + case
    yield bytes(batch)


def by_program(command, cases):
    sums = []
    for batch in batches(cases):
        done = subprocess.run(command, input=batch, capture_output=True, check=True)
        lines = done.stdout.decode("ascii").splitlines()
        sums += [tuple(int(word, 16) for word in line.split()) for line in lines]
    return sums


def first_difference(name, ours, theirs, cases):
    """One sentence on the first byte string on which the two differ, or None."""
    if not len(cases) == len(ours) == len(theirs):
        return f"{name}: {len(theirs)} answers, the library {len(ours)}, on {len(cases)} byte strings"
    for case, mine, other in zip(cases, ours, theirs):
        if mine != other:
            return f"{name}: {other}, the library {mine}, on {case.hex() or 'no bytes'}"
    return None


def main():
    cases = list(byte_strings())
    ours = by_program(["target/bin/sumcases"], cases)
    judges = {
        "crcmod": by_crcmod(cases),
        "Digest::CRC": by_program(["/usr/bin/perl", "tests/sums/sums.pl"], cases),
    }
    wrong = []
    if ours[:1] != [CHECK_SUMS]:
        wrong.append(f"check values: {CHECK_SUMS}, the library {ours[:1]}")
    for name, theirs in judges.items():
        difference = first_difference(name, ours, theirs, cases)
        if difference:
            wrong.append(difference)
    for sentence in wrong:
        print(f"sums: {sentence}")
    if wrong:
        sys.exit(1)
    print(f"sums: {len(cases)} byte strings, among them all of one or two bytes: CRC-8 and CRC-16 agree with crcmod, Digest::CRC "
          "and the check values")


if __name__ == "__main__":
    main()
