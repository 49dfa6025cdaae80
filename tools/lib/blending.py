"""The colour of one pixel: what a pattern picks, and what a drawing mode makes of it.

Colours are numbers of 24 bits; None is the transparent one.
"""

PATTERNS = {'high': bytes([255] * 8), 'low': bytes(8), 'mixed': bytes([0xaa, 0x55] * 4)}

COMPONENTS = {
    'invert': lambda source, old: 255 - old,
    'add': lambda source, old: min(255, old + source),
    'subtract': lambda source, old: max(0, old - source),
    'blend': lambda source, old: (source + old) // 2,
    'min': min,
    'max': max,
}


def pattern_rows(word):
    """The eight rows of a pattern, each a byte whose highest bit is leftmost."""
    return PATTERNS[word] if word in PATTERNS else bytes.fromhex(word)


def picked(mode, bit, high, low):
    """A bit of 1 picks the high colour. One of 0 picks the low one in copy, else nothing."""
    if bit:
        return high
    return low if mode == 'copy' else None


def blended(mode, source, old, high, low):
    """The new colour of a pixel of the colour `old`."""
    if source is None:
        return old
    if mode in ('copy', 'over'):
        return source
    if mode == 'erase':
        new = low
    elif mode == 'select':
        new = low if old == high else high if old == low else old
    else:
        rule = COMPONENTS[mode]
        new = sum(rule(source >> shift & 255, old >> shift & 255) << shift for shift in (16, 8, 0))
    return old if new is None else new
