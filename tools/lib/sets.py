"""Sets of pixels as bytes, 1 for each that is there."""


def only(number):
    """A table that makes 1 of a byte that is the number, and 0 of each other one."""
    return bytes(1 if byte == number else 0 for byte in range(256))


def both(one, other):
    """Bytes of 0 and 1 that are 1 where both are."""
    joined = int.from_bytes(one, 'little') & int.from_bytes(other, 'little')
    return joined.to_bytes(len(one), 'little')
