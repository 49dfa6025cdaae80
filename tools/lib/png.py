"""Pictures as PNG, of whole pixels: written of a report's rows, and read back for tests."""
import struct
import zlib

SIGNATURE = b'\x89PNG\r\n\x1a\n'


def _chunk(kind, data):
    body = kind + data
    return struct.pack('>I', len(data)) + body + struct.pack('>I', zlib.crc32(body))


def write_png(rows, width, height, factor=1):
    """The bytes of a picture. Rows are runs of a count and six hexadecimal digits.

    Each pixel becomes a square of `factor` by `factor`. Up to 256 colours go by a palette.
    """
    colors = sorted({color for row in rows for _, color in row})
    by_palette = len(colors) <= 256
    spelt = {color: bytes([at]) if by_palette else bytes.fromhex(color)
             for at, color in enumerate(colors)}
    raw = bytearray()
    for row in rows:
        line = b'\0' + b''.join(spelt[color] * (count * factor) for count, color in row)
        raw += line * factor
    header = struct.pack('>IIBBBBB', width * factor, height * factor, 8, 3 if by_palette else 2,
                         0, 0, 0)
    palette = _chunk(b'PLTE', bytes.fromhex(''.join(colors))) if by_palette else b''
    return (SIGNATURE + _chunk(b'IHDR', header) + palette
            + _chunk(b'IDAT', zlib.compress(bytes(raw), 9)) + _chunk(b'IEND', b''))


def _unfiltered(kind, line, above, size):
    """A line of bytes without its filter, by the one above; a pixel has `size` bytes."""
    out = bytearray(line)
    for at, byte in enumerate(line):
        left = out[at - size] if at >= size else 0
        up = above[at]
        corner = above[at - size] if at >= size else 0
        if kind == 1:
            guess = left
        elif kind == 2:
            guess = up
        elif kind == 3:
            guess = (left + up) // 2
        else:
            near = left + up - corner
            guess = min((left, up, corner), key=lambda value: abs(near - value))
        out[at] = (byte + guess) & 255
    return bytes(out)


def read_png(data):
    """Width, height and rows of pixels, each six hexadecimal digits, of a picture of 8 bits."""
    if data[:8] != SIGNATURE:
        raise ValueError('no PNG')
    at, parts, header, palette = 8, [], None, b''
    while at < len(data):
        length, kind = struct.unpack('>I4s', data[at:at + 8])
        body = data[at + 8:at + 8 + length]
        (sum_,) = struct.unpack('>I', data[at + 8 + length:at + 12 + length])
        if sum_ != zlib.crc32(kind + body):
            raise ValueError('a chunk is damaged')
        if kind == b'IHDR':
            header = struct.unpack('>IIBBBBB', body)
        elif kind == b'PLTE':
            palette = body
        elif kind == b'IDAT':
            parts.append(body)
        at += 12 + length
    width, height, depth, color = header[:4]
    size = {2: 3, 3: 1, 6: 4}[color]
    if depth != 8 or header[6]:
        raise ValueError('not a picture of 8 bits, line by line')
    raw = zlib.decompress(b''.join(parts))
    rows, above = [], bytes(width * size)
    for y in range(height):
        start = y * (width * size + 1)
        kind, line = raw[start], raw[start + 1:start + 1 + width * size]
        above = line if kind == 0 else _unfiltered(kind, line, above, size)
        pixels = [above[x:x + size] for x in range(0, width * size, size)]
        if palette:
            pixels = [palette[3 * p[0]:3 * p[0] + 3] for p in pixels]
        rows.append([p[:3].hex() for p in pixels])
    return width, height, rows
