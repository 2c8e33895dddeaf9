#!/usr/bin/env python3
"""Writes PNG pictures of 8 bits a channel anew, with a palette of at most 256 colours."""
import struct
import sys
import zlib


def chunks_of(data):
    at = 8
    while at < len(data):
        size, kind = struct.unpack(">I4s", data[at:at + 8])
        yield kind, data[at + 8:at + 8 + size]
        at += size + 12


def pixels_of(data):
    """The width, the height, and the rows of pixels, each a tuple of red, green and blue."""
    chunks = list(chunks_of(data))
    width, height, depth, colour = struct.unpack(">IIBB", chunks[0][1][:10])
    assert depth == 8 and colour in (2, 6)
    size = 3 if colour == 2 else 4
    raw = zlib.decompress(b"".join(body for kind, body in chunks if kind == b"IDAT"))
    rows, above = [], bytearray(width * size)
    for y in range(height):
        start = y * (width * size + 1)
        row = bytearray(raw[start + 1:start + 1 + width * size])
        undo(raw[start], row, above, size)
        rows.append([tuple(row[x:x + 3]) for x in range(0, len(row), size)])
        above = row
    return width, height, rows


def undo(kind, row, above, size):
    for at in range(len(row) if kind else 0):
        left = row[at - size] if at >= size else 0
        corner = above[at - size] if at >= size else 0
        if kind == 1:
            guess = left
        elif kind == 2:
            guess = above[at]
        elif kind == 3:
            guess = (left + above[at]) // 2
        else:
            p = left + above[at] - corner
            guess = min((left, above[at], corner), key=lambda near: abs(p - near))
        row[at] = (row[at] + guess) & 255


def palette_of(rows):
    """The palette: the commonest colours, rounded more until there are few enough."""
    counts = {}
    for row in rows:
        for pixel in row:
            counts[pixel] = counts.get(pixel, 0) + 1
    common = sorted(counts, key=counts.get, reverse=True)[:64]
    for step in (8, 16, 24, 32, 48):
        place, colours = {pixel: at for at, pixel in enumerate(common)}, list(common)
        rounded = {}
        for pixel in counts:
            if pixel in place:
                continue
            near = tuple(min(255, (part + step // 2) // step * step) for part in pixel)
            if near not in rounded:
                rounded[near] = len(colours)
                colours.append(near)
            place[pixel] = rounded[near]
        if len(colours) <= 256:
            return place, colours
    raise SystemExit("too many colours")


def chunk(kind, body):
    return struct.pack(">I", len(body)) + kind + body + struct.pack(">I", zlib.crc32(kind + body))


def main(paths):
    for path in paths:
        with open(path, "rb") as file:
            width, height, rows = pixels_of(file.read())
        place, colours = palette_of(rows)
        raw = b"".join(b"\0" + bytes(place[pixel] for pixel in row) for row in rows)
        with open(path, "wb") as file:
            file.write(b"\x89PNG\r\n\x1a\n" + chunk(b"IHDR", struct.pack(">IIBBBBB", width, height, 8, 3, 0, 0, 0))
                       + chunk(b"PLTE", b"".join(map(bytes, colours))) + chunk(b"IDAT", zlib.compress(raw, 9)) + chunk(b"IEND", b""))


main(sys.argv[1:])
