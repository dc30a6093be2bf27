"""Pictures (PNG of 8 bits a channel): one with few colours, which is a third of its size, and how far colours are apart."""

import struct
import zlib
from collections import Counter

SIGNATURE = b"\x89PNG\r\n\x1a\n"
COLOURS = 48


def chunks(png):
    at = len(SIGNATURE)
    while at < len(png):
        (length,) = struct.unpack(">I", png[at : at + 4])
        yield png[at + 4 : at + 8], png[at + 8 : at + 8 + length]
        at += length + 12


def chunk(kind, data):
    return struct.pack(">I", len(data)) + kind + data + struct.pack(">I", zlib.crc32(kind + data))


def paeth(left, up, corner):
    guess = left + up - corner
    near = (abs(guess - left), abs(guess - up), abs(guess - corner))
    return (left, up, corner)[near.index(min(near))]


def rows(data, width, height, channels):
    """The bytes of each row, without the filters of the format."""
    stride, above = width * channels, bytearray(width * channels)
    for number in range(height):
        kind, row = data[number * (stride + 1)], bytearray(data[number * (stride + 1) + 1 : (number + 1) * (stride + 1)])
        for at in range(stride) if kind else ():
            left = row[at - channels] if at >= channels else 0
            corner = above[at - channels] if at >= channels else 0
            add = (0, left, above[at], (left + above[at]) // 2, paeth(left, above[at], corner) if kind == 4 else 0)[kind]
            row[at] = (row[at] + add) & 255
        yield row
        above = row


def pixels_of(png):
    """The rows of a picture, each pixel as three bytes."""
    parts = list(chunks(png))
    width, height, _, kind = struct.unpack(">IIBB", parts[0][1][:10])
    channels = {2: 3, 6: 4}[kind]
    data = zlib.decompress(b"".join(data for name, data in parts if name == b"IDAT"))
    return [[bytes(row[at : at + 3]) for at in range(0, len(row), channels)] for row in rows(data, width, height, channels)]


def colours_at(png, places):
    """The pixels of a picture at these places."""
    pixels = pixels_of(png)
    return [pixels[round(y)][round(x)] for x, y in places]


def lab(colour):
    """A colour in CIELAB, whose distances are about those that one sees."""
    linear = [part / 12.92 if (part := byte / 255) <= 0.04045 else ((part + 0.055) / 1.055) ** 2.4 for byte in colour]
    to_xyz = ((0.4124, 0.3576, 0.1805), (0.2126, 0.7152, 0.0722), (0.0193, 0.1192, 0.9505))
    white = (0.9505, 1.0, 1.089)
    xyz = [sum(a * b for a, b in zip(row, linear)) / most for row, most in zip(to_xyz, white)]
    x, y, z = (part ** (1 / 3) if part > 0.008856 else 7.787 * part + 16 / 116 for part in xyz)
    return 116 * y - 16, 500 * (x - y), 200 * (y - z)


def difference(one, two):
    """How far two colours are apart: some 2 is just seen side by side, and 10 at a glance."""
    return sum((a - b) ** 2 for a, b in zip(lab(one), lab(two))) ** 0.5


def small(png):
    """The picture in its most frequent colours, each other colour as the nearest of them."""
    pixels = pixels_of(png)
    width, height = len(pixels[0]), len(pixels)
    # Counted where the pixel before is the same: so the mixtures along edges don't push out the colours of small marks.
    flat = Counter(pixel for row in pixels for before, pixel in zip(row, row[1:]) if before == pixel)
    palette = [colour for colour, _ in flat.most_common(COLOURS)]
    index = {colour: at for at, colour in enumerate(palette)}

    def nearest(colour):
        if colour not in index:
            far = [sum((a - b) ** 2 for a, b in zip(colour, other)) for other in palette]
            index[colour] = far.index(min(far))
        return index[colour]

    packed = b"".join(b"\0" + bytes(map(nearest, row)) for row in pixels)
    head = struct.pack(">IIBBBBB", width, height, 8, 3, 0, 0, 0)
    return SIGNATURE + b"".join(
        chunk(name, body)
        for name, body in (
            (b"IHDR", head),
            (b"PLTE", b"".join(palette)),
            (b"IDAT", zlib.compress(packed, 9)),
            (b"IEND", b""),
        )
    )
