"""The screen of a report as coloured blocks in a terminal of 24 bits of colour."""


def _rgb(color):
    return f'{int(color[0:2], 16)};{int(color[2:4], 16)};{int(color[4:6], 16)}'


def _pixels(row):
    return [color for count, color in row for _ in range(count)]


def blocks(rows):
    """Lines of text, each of two rows of pixels: the upper half of a block is one, the lower one
    the other."""
    lines = []
    for y in range(0, len(rows), 2):
        upper = _pixels(rows[y])
        lower = _pixels(rows[y + 1]) if y + 1 < len(rows) else [None] * len(upper)
        line, last = [], None
        for pair in zip(upper, lower):
            if pair != last:
                below = f'48;2;{_rgb(pair[1])}' if pair[1] else '49'
                line.append(f'\x1b[38;2;{_rgb(pair[0])};{below}m')
                last = pair
            line.append('\u2580')
        lines.append(''.join(line) + '\x1b[0m\n')
    return ''.join(lines)
