"""Pictures: a PNG taken apart with zlib, to see that it shows something."""

import collections
import struct
import zlib

CHANNELS = {2: 3, 6: 4}


def chunks(data):
    at = 8
    while at < len(data):
        length, kind = struct.unpack(">I4s", data[at:at + 8])
        yield kind, data[at + 8:at + 8 + length]
        at += 12 + length


def paeth(left, up, corner):
    a, b, c = abs(up - corner), abs(left - corner), abs(left + up - 2 * corner)
    return left if a <= b and a <= c else up if b <= c else corner


def unfiltered(kind, row, above, step):
    """A row as it was before its filter."""
    if kind == 2:
        return bytearray((byte + up) & 255 for byte, up in zip(row, above))
    row = bytearray(row)
    if kind == 0:
        return row
    for i, byte in enumerate(row):
        left, corner = (row[i - step], above[i - step]) if i >= step else (0, 0)
        row[i] = (byte + {1: left, 3: (left + above[i]) // 2}.get(kind, paeth(left, above[i], corner) if kind == 4 else 0)) & 255
    return row


def rows(data):
    """The rows of a picture, each a list of colours."""
    parts = list(chunks(data))
    width, height, depth, colour = struct.unpack(">IIBB", parts[0][1][:10])
    step = CHANNELS[colour]
    assert depth == 8, depth
    raw = zlib.decompress(b"".join(body for kind, body in parts if kind == b"IDAT"))
    above = bytearray(width * step)
    for y in range(height):
        at = y * (width * step + 1)
        above = unfiltered(raw[at], raw[at + 1:at + 1 + width * step], above, step)
        yield [bytes(above[i:i + 3]) for i in range(0, len(above), step)]


def is_empty(data, bands=4):
    """Why a picture counts as empty: few colours, or one of them nearly everywhere; else None."""
    lines = list(rows(data))
    whole = collections.Counter(colour for line in lines for colour in line)
    if len(whole) < 60:
        return f"it has {len(whole)} colours"
    most = whole.most_common(1)[0][1] / sum(whole.values())
    if most > 0.9:
        return f"one colour has {most:.0%} of it"
    height = len(lines) // bands
    plain = sum(len({colour for line in lines[band * height:(band + 1) * height] for colour in line}) < 8 for band in range(bands))
    return "it has a band without anything" if plain > 1 else None
