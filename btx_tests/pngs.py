"""PNGs with a palette, read without Pillow."""
import struct
import zlib


def chunks_of(picture):
    """The parts of a PNG, each its kind and its data."""
    assert picture[:8] == b"\x89PNG\r\n\x1a\n"
    at = 8
    while at < len(picture):
        length, kind = struct.unpack(">I4s", picture[at : at + 8])
        yield kind, picture[at + 8 : at + 8 + length]
        at += length + 12


def size_of(picture):
    return struct.unpack(">II", dict(chunks_of(picture))[b"IHDR"][:8])


def rows_of(picture):
    """The lines of a PNG with a palette, each a list of its pixels as six digits."""
    parts = list(chunks_of(picture))
    width, height, depth, colours, _, _, interlaced = struct.unpack(">IIBBBBB", dict(parts)[b"IHDR"])
    assert (colours, interlaced) == (3, 0)
    palette = dict(parts)[b"PLTE"].hex().upper()
    size, lines = -(-width * depth // 8), []
    last, raw = bytes(size), zlib.decompress(b"".join(data for kind, data in parts if kind == b"IDAT"))
    for start in range(0, len(raw), size + 1):
        last = unfiltered(raw[start], raw[start + 1 : start + 1 + size], last)
        bits = f"{int.from_bytes(last, 'big'):0{8 * size}b}"
        numbers = [int(bits[at : at + depth], 2) for at in range(0, width * depth, depth)]
        lines.append([palette[6 * number : 6 * number + 6] for number in numbers])
    assert len(lines) == height
    return lines


def unfiltered(kind, line, above):
    """A line of a PNG without its filter."""
    done = bytearray(line)
    for at in range(len(line)):
        left, corner = (done[at - 1], above[at - 1]) if at else (0, 0)
        done[at] = (line[at] + (0, left, above[at], (left + above[at]) // 2, nearest(left, above[at], corner))[kind]) % 256
    return bytes(done)


def nearest(left, above, corner):
    return min((left, above, corner), key=lambda one: abs(left + above - corner - one))
