"""What a PNG of tools/glyph shows."""
import struct
import zlib


def pixels(png):
    """Width, height and the bytes below the compression, whose layout may differ from one zlib to the next."""
    width, height, _, colour = struct.unpack_from(">IIBB", png, 16)
    packed, at = b"", 8
    while at < len(png):
        n, kind = struct.unpack_from(">I4s", png, at)
        packed += png[at + 8:at + 8 + n] if kind == b"IDAT" else b""
        assert zlib.crc32(png[at + 4:at + 8 + n]) == struct.unpack_from(">I", png, at + 8 + n)[0], "a PNG chunk's sum is wrong"
        at += 12 + n
    data = zlib.decompress(packed)
    assert len(data) == height * ({2: 3, 6: 4}[colour] * width + 1), "the PNG has not as many bytes as its size says"
    return width, height, data
