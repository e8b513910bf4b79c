"""The keystream of a key, as records are sealed with it: that of ChaCha20 (RFC 8439, 2.3 and 2.4) with its counter of 64 bits and
stream 0, from its first word on. It is written anew from the RFC, so that tests and benchmarks make and open pages without the program."""
import struct

CONSTANTS = (0x61707865, 0x3320646E, 0x79622D32, 0x6B206574)
COLUMNS = ((0, 4, 8, 12), (1, 5, 9, 13), (2, 6, 10, 14), (3, 7, 11, 15))
DIAGONALS = ((0, 5, 10, 15), (1, 6, 11, 12), (2, 7, 8, 13), (3, 4, 9, 14))


def quarter_round(words, a, b, c, d):
    for left, right, into, turn in ((a, b, d, 16), (c, d, b, 12), (a, b, d, 8), (c, d, b, 7)):
        words[left] = (words[left] + words[right]) & 0xFFFFFFFF
        mixed = words[into] ^ words[left]
        words[into] = ((mixed << turn) | (mixed >> (32 - turn))) & 0xFFFFFFFF


def block(key, counter):
    """The 64 bytes of a block."""
    start = [*CONSTANTS, *struct.unpack("<8I", key), counter & 0xFFFFFFFF, counter >> 32, 0, 0]
    words = start[:]
    for _ in range(10):
        for places in (*COLUMNS, *DIAGONALS):
            quarter_round(words, *places)
    return struct.pack("<16I", *((one + other) & 0xFFFFFFFF for one, other in zip(words, start)))


def keystream(key, size):
    """The first bytes of a key's keystream."""
    return b"".join(block(key, counter) for counter in range((size + 63) // 64))[:size]
