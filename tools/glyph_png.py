"""PNG for tools/glyph: written for pictures and for fields, and read where it holds a field."""
import struct
import zlib

from glyph_forms import SAMPLE_LIMIT, Bad

SIGNATURE = b"\x89PNG\r\n\x1a\n"
COLOUR_TYPES = {3: 2, 4: 6}  # by the number of channels: RGB and RGBA
OTHER_TYPES = {0: "grey", 3: "a palette", 4: "grey with alpha"}
REFUSED = {  # chunks that may not be passed over, and why
    b"IHDR": "this is a second IHDR, and there is one, at the start",
    b"PLTE": "this is a palette (PLTE), and the bytes of a field are no colours of one: write the PNG without it",
    b"tRNS": "this makes a colour transparent (tRNS), for which the field has no channel: write the PNG without it, or as RGBA"}


# ---- writing

def chunk(kind, contents):
    return struct.pack(">I", len(contents)) + kind + contents + struct.pack(">I", zlib.crc32(kind + contents))


def to_png(width, height, channels, lines):
    """A PNG of three or four channels of 8 bits, from the bytes of each row, the top row first."""
    head = struct.pack(">IIBBBBB", width, height, 8, COLOUR_TYPES[channels], 0, 0, 0)
    packed = zlib.compress(b"".join(b"\0" + line for line in lines), 9)
    return SIGNATURE + chunk(b"IHDR", head) + chunk(b"IDAT", packed) + chunk(b"IEND", b"")


# ---- reading: the chunks

class Chunks:
    """The chunks of a PNG one after the other, each whole and with the right sum. A breach is told at the byte where its chunk begins."""

    def __init__(self, name, data):
        self.name, self.data, self.at, self.end = name, data, 0, len(SIGNATURE)
        if not data.startswith(SIGNATURE):
            self.bad("this is no PNG: it begins with the bytes 89 50 4E 47 0D 0A 1A 0A")

    def bad(self, why):
        raise Bad(f"{self.name}: byte {self.at}: {why}")

    def next(self):
        self.at = self.end
        left = len(self.data) - self.at
        if left < 8:
            self.bad("the file ends " + ("in the head of a chunk" if left else "before IEND, the last chunk"))
        length, kind = struct.unpack_from(">I4s", self.data, self.at)
        if not kind.isalpha():
            self.bad(f"a chunk has a name of four letters, and this has the bytes {' '.join(f'{b:02X}' for b in kind)}")
        if left < 12 + length:
            self.bad(f"the file ends in chunk {kind.decode()}, whose length says {length} bytes")
        self.end = self.at + 12 + length
        if zlib.crc32(self.data[self.at + 4:self.end - 4]) != struct.unpack_from(">I", self.data, self.end - 4)[0]:
            self.bad(f"the sum (CRC) of chunk {kind.decode()} is not that of its bytes: the file is damaged")
        return kind, self.data[self.at + 8:self.end - 4]


def hold_form(chunks, depth, colour, packing, filters, interlaced):
    if colour not in COLOUR_TYPES.values():
        chunks.bad(f"this PNG has colour type {colour}, {OTHER_TYPES.get(colour, 'which there is not')}: only 2, RGB, and 6, RGBA, hold a field")
    if depth != 8:
        chunks.bad(f"this PNG has {depth} bits a channel, and only 8 are read")
    if packing or filters:
        chunks.bad(f"this PNG has compression method {packing} and filter method {filters}, and there is only 0 of each")
    if interlaced:
        chunks.bad(f"this PNG is interlaced (method {interlaced}): write it without")


def read_head(chunks):
    """Width, height and channels, of a form and a size that the fields can take."""
    kind, head = chunks.next()
    if kind != b"IHDR":
        chunks.bad(f"IHDR should be the first chunk, and {kind.decode()} is")
    if len(head) != 13:
        chunks.bad(f"IHDR has 13 bytes, and its length says {len(head)}")
    width, height, depth, colour, *more = struct.unpack(">IIBBBBB", head)
    hold_form(chunks, depth, colour, *more)
    channels = 3 if colour == COLOUR_TYPES[3] else 4
    if 0 in (width, height):
        chunks.bad(f"this PNG is {width} x {height}, and it has a pixel at least")
    if width * height * channels > SAMPLE_LIMIT:
        chunks.bad(f"{width} x {height} x {channels} is {width * height * channels} samples, and the program takes {SAMPLE_LIMIT} at most")
    return width, height, channels


def hold_end(chunks, parts, contents):
    if contents:
        chunks.bad(f"IEND has no bytes, and its length says {len(contents)}")
    if not parts:
        chunks.bad("there is no IDAT before IEND: this PNG has no pixels")
    if chunks.end < len(chunks.data):
        chunks.at = chunks.end
        chunks.bad(f"{len(chunks.data) - chunks.end} more bytes follow IEND")


def read_parts(chunks):
    """What the IDATs hold together, which follow one another. Then comes IEND, and nothing more. Other chunks are passed over where they may be."""
    parts, last = [], b""
    while last != b"IEND":
        kind, contents = chunks.next()
        if kind == b"IDAT":
            if parts and last != b"IDAT":
                chunks.bad(f"the IDATs follow one another, and {last.decode()} stands before this one")
            parts.append(contents)
        elif kind == b"IEND":
            hold_end(chunks, parts, contents)
        elif kind in REFUSED or kind[:1].isupper():
            chunks.bad(REFUSED.get(kind, f"chunk {kind.decode()} may not be passed over, and what it means is not known: write the PNG without it"))
        last = kind
    return b"".join(parts)


# ---- reading: the pixels

def unpack(name, packed, length):
    """So many bytes from a zlib stream that has these and no more. It is never unpacked further than one byte beyond them."""
    stream = zlib.decompressobj()
    try:
        data = stream.decompress(packed, length + 1)
    except zlib.error as e:
        raise Bad(f"{name}: the pixels cannot be unpacked: {str(e).split(': ', 1)[-1]}") from None
    if len(data) > length:
        raise Bad(f"{name}: the size asks for {length} bytes of rows and filters, and the pixels go on after them")
    if len(data) < length:
        raise Bad(f"{name}: the size asks for {length} bytes of rows and filters, and the pixels end after {len(data)}")
    if not stream.eof:
        raise Bad(f"{name}: the pixels are all there, and the zlib stream ends before its own end and sum")
    if stream.unused_data:
        raise Bad(f"{name}: {len(stream.unused_data)} more bytes follow the zlib stream in IDAT")
    return data


def paeth(left, up, corner):
    """Of the three the one nearest to left + up - corner, and the first of those that are as near."""
    return min((left, up, corner), key=lambda b: abs(left + up - corner - b))


# what each filter adds to a stored byte, from the bytes a pixel to the left, above, and above that to the left
FILTERS = (lambda left, up, corner: 0, lambda left, up, corner: left, lambda left, up, corner: up, lambda left, up, corner: (left + up) // 2, paeth)


def unfiltered(added, line, above, channels):
    row = bytearray(channels) + line
    above = bytes(channels) + above
    for i in range(channels, len(row)):
        row[i] = row[i] + added(row[i - channels], above[i], above[i - channels]) & 255
    return bytes(row[channels:])


def from_png(name, data):
    """The size of a PNG that holds a field, with its channels, and the bytes of each row, the top row first."""
    chunks = Chunks(name, data)
    width, height, channels = read_head(chunks)
    long = width * channels
    stored, lines = unpack(name, read_parts(chunks), (1 + long) * height), [bytes(long)]
    for y in range(height):
        kind, *line = stored[(1 + long) * y:(1 + long) * (y + 1)]
        if kind >= len(FILTERS):
            raise Bad(f"{name}: row {y} from the top has filter {kind}, and there are 0 to {len(FILTERS) - 1}")
        lines.append(unfiltered(FILTERS[kind], bytes(line), lines[-1], channels))
    return (width, height, channels), lines[1:]
