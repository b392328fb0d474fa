"""Fields of bits with the bytes that they leave where ones stood: every width at two bits, document 01's widths at every bit. The form of a body stands
in crates/samples/src/bit_fields.rt."""
import random
import struct

from .oracle import SEED

WIDTHS = [1, 4, 7, 9, 11, 16, 32, 64]


def body(bit, width, value):
    bits = "1" * bit + format(value, f"0{width}b")
    length = (len(bits) + 7) // 8
    return struct.pack(">BBQ", bit, width, value) + int(bits.ljust(8 * length, "0"), 2).to_bytes(length, "big")


def bodies():
    rng = random.Random(int(SEED))
    places = [(rng.randrange(8), width) for width in range(1, 65) for _ in range(2)] + [(bit, width) for width in WIDTHS for bit in range(8)]
    return [body(bit, width, rng.choice([0, 2**width - 1, rng.getrandbits(width), rng.getrandbits(width)])) for bit, width in places]
