#!/usr/bin/env -S python3 -B
"""Prints datagrams as text2pcap reads them.

    dump.py told LINES      those of the lines of main.rt.in
    dump.py any SEED        of 1997: a table of what is refused, and drawn ones, of which each third is altered
"""
import random
import struct
import sys

MASK = (1 << 28) - 1


def with_sum(flags, behind):
    """A datagram: the checksum word, and the bytes behind it."""
    total = 0x1234567
    for number, word in enumerate(struct.iter_unpack("<I", behind[:len(behind) // 4 * 4])):
        total += (number + 1) * word[0]
    return struct.pack("<I", flags << 28 | total & MASK) + behind


def datagram(draws):
    """Any flags, numbers and commands, with the right sum."""
    flags = draws.choice((0, 0, 0, 4, 4, 8, 2, draws.randrange(16)))
    count = draws.randrange(13)
    return with_sum(flags, draws.randbytes(3) + bytes([count]) + draws.randbytes(8 * count))


def altered(draws, whole):
    """A bit turned, bytes cut or put behind, or another count; its sum may still be right."""
    place = draws.randrange(len(whole))
    match draws.randrange(5):
        case 0: return whole[:place or 1]
        case 1: return whole + draws.randbytes(1 + draws.randrange(16))
        case 2: return with_sum(whole[3] >> 4, whole[4:7] + draws.randbytes(1) + whole[8:])
        case _: return whole[:place] + bytes([whole[place] ^ 1 << draws.randrange(8)]) + whole[place + 1:]


def refused(draws):
    """Each length that is too short, each count that is too high, lengths beside those of a count, and each bit
    of the sum turned. Where several faults apply, the first is wanted."""
    for length in range(1, 8):
        yield draws.randbytes(length)
    for count in range(13, 256):
        yield with_sum(0, bytes([0, 0, 1, count]) + bytes(8 * min(count, 12)))
    for count in range(13):
        for length in {0, 1, 7, 8, 9, 8 * count - 1, 8 * count + 1, 8 * count + 8} - {8 * count, -1}:
            yield with_sum(4, bytes([0, 0, 1, count]) + bytes(length))
    for bit in range(28):
        whole = bytearray(datagram(draws))
        whole[bit // 8] ^= 1 << bit % 8
        yield bytes(whole)


def dump(bytes_):
    for place in range(0, len(bytes_), 16):
        print(f"{place:06x}", bytes_[place:place + 16].hex(" "))
    print()


if sys.argv[1] == "told":
    with open(sys.argv[2]) as file:
        for line in file:
            dump(bytes(int(one) for one in line.split("|")[0].split(",") if one))
else:
    draws = random.Random(int(sys.argv[2]))
    for bad in refused(draws):
        dump(bad)
    for number in range(600):
        dump(altered(draws, datagram(draws)) if number % 3 == 0 else datagram(draws))
