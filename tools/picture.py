"""Pictures of pages made small: a PNG of 256 colours in the place of one of all."""
import collections
import struct
import zlib

SIGNATURE = b'\x89PNG\r\n\x1a\n'


def chunks(png):
    """The kinds and the contents of the parts of a PNG."""
    at = len(SIGNATURE)
    while at < len(png):
        length = struct.unpack('>I', png[at:at + 4])[0]
        yield png[at + 4:at + 8], png[at + 8:at + 8 + length]
        at += 12 + length


def chunk(kind, content):
    return struct.pack('>I', len(content)) + kind + content + struct.pack('>I', zlib.crc32(kind + content))


def nearest(left, up, corner):
    """Of three neighbours the one that is nearest to where they lead."""
    way = left + up - corner
    return min((abs(way - left), 0, left), (abs(way - up), 1, up), (abs(way - corner), 2, corner))[2]


def line_of(sort, line, above, wide):
    """A line of a PNG as it is, of what it differs by from its neighbours: each byte, with points so many bytes wide."""
    for at, byte in enumerate(line):
        left, corner = (line[at - wide], above[at - wide]) if at >= wide else (0, 0)
        up = above[at]
        guess = nearest(left, up, corner) if sort == 4 else (0, left, up, (left + up) // 2)[sort]
        line[at] = byte + guess & 255
    return line


def points_of(png):
    """The width of a picture, and its lines, each a list of points of red, green and blue."""
    parts = list(chunks(png))
    width, height, _, colours = struct.unpack('>IIBB', parts[0][1][:10])
    wide = 4 if colours == 6 else 3
    content = zlib.decompress(b''.join(content for kind, content in parts if kind == b'IDAT'))
    above, lines = bytes(width * wide), []
    for at in range(0, height * (width * wide + 1), width * wide + 1):
        above = line_of(content[at], bytearray(content[at + 1:at + 1 + width * wide]), above, wide)
        lines.append([bytes(above[point:point + 3]) for point in range(0, width * wide, wide)])
    return width, lines


def palette_of(counts):
    """256 colours of a picture, by how many points have which: the most common ones, and of others that are much alike the most
    common one."""
    colours = [colour for colour, _ in counts.most_common()]
    alike = {}
    for colour in colours[96:]:
        alike.setdefault(bytes(part >> 4 for part in colour), colour)
    return (colours[:96] + list(alike.values()))[:256]


def smaller(png):
    """The picture in 256 colours, each point in the colour that is nearest to its own."""
    width, lines = points_of(png)
    counts = collections.Counter(point for line in lines for point in line)
    palette = palette_of(counts)
    places = {}
    for colour in counts:
        places[colour] = min(range(len(palette)), key=lambda place: sum((a - b) ** 2 for a, b in zip(palette[place], colour)))
    content = b''.join(b'\0' + bytes(places[point] for point in line) for line in lines)
    head = struct.pack('>IIBBBBB', width, len(lines), 8, 3, 0, 0, 0)
    parts = [(b'IHDR', head), (b'PLTE', b''.join(palette)), (b'IDAT', zlib.compress(content, 9)), (b'IEND', b'')]
    return SIGNATURE + b''.join(chunk(kind, content) for kind, content in parts)
