"""The programs in C above the proved library, as tools/glyph asks them, and words for what they refuse."""
import os
import struct
import subprocess

from glyph_forms import Bad, shown, value_of

TOOLS = os.path.dirname(os.path.realpath(__file__))
LIMIT = 1048576  # of a sample, a coordinate and the zero value


def told(bits):
    value = value_of(bits)
    return shown(bits, False) if abs(value) < float("inf") else str(value)


def sample_words(glyph, place):
    """Why a sample is refused (number 6)."""
    width, _, channels = glyph.size
    texel, bits = place // channels, [b for line in glyph.rows for b in line][place]
    return f"channel {place % channels} of texel {texel % width} {texel // width} is {told(bits)}, not a number of size up to {LIMIT}"


def ask(name, program, given, length, failed, words):
    """What tools/PROGRAM answers, so many bytes after its number and place. A refusal is told with both and with the words for them."""
    ran = subprocess.run([os.path.join(TOOLS, program)], input=given, stdout=subprocess.PIPE)
    if ran.returncode != 0 or len(ran.stdout) < 12:
        raise Bad(f"{name}: {failed}")
    number, place = struct.unpack_from("<IQ", ran.stdout)
    if number != 0:
        raise Bad(f"{name}: refused {number}, place {place}: {words(number, place)}")
    if len(ran.stdout) != 12 + length:
        raise Bad(f"{name}: the program for {program} answered {len(ran.stdout)} bytes")
    return ran.stdout[12:]
