#!/usr/bin/env python3
"""develop_frame.py LIBRARY FILE: reads a frame file, develops and clamps it, and prints each site's colours by the tone
curve of display panels. What fails is told in one line on standard error, with status 1; a refusal of the library's by
its number, place and text. LIBRARY is the path of libbayer.so; FILE may be a pipe. Needs nothing but Python's standard
library."""

import ctypes
import sys
from array import array
from contextlib import contextmanager
from ctypes import POINTER, c_char_p, c_int32, c_size_t, c_uint16, c_uint8

# The camera's black level: the sample that stands for no light. A frame file does not hold it. 0 is right for samples
# that had it taken off before, as those of the document's example.
BLACK = 0

# A block of a frame file, and the samples that a block after the first has.
BLOCK_BYTES, BLOCK_SAMPLES = 512, 400

# Entries of develop's work buffer for each site.
WORK_ENTRIES = 4

# The type code of an array of bytes, of samples and of a plane's numbers, and what that is in C.
BYTES, SAMPLES, NUMBERS = "B", "H", "i"
IN_C = {BYTES: c_uint8, SAMPLES: c_uint16, NUMBERS: c_int32}

STANDARD_OUTPUT = 1


class Shape(ctypes.Structure):
    _fields_ = [("width", c_size_t), ("height", c_size_t), ("phase", c_size_t)]


class Returned(ctypes.Structure):
    _fields_ = [("number", c_size_t), ("place", c_size_t)]


class ReadReturned(ctypes.Structure):
    _fields_ = Returned._fields_ + Shape._fields_


class Refused(Exception):
    """A refusal: its number, its place and the library's text for it."""

    def __init__(self, number, place, text):
        super().__init__(f"refused {number} {place}: {text}")
        self.number, self.place = number, place


def parameters(*codes):
    """The types of two parameters for each buffer: where its entries are, and how many."""
    return [kind for code in codes for kind in (POINTER(IN_C[code]), c_size_t)]


def lent(*buffers):
    """The two arguments for each buffer. An array keeps its place in memory while one of them is used."""
    pointers = [(IN_C[buffer.typecode] * len(buffer)).from_buffer(buffer) for buffer in buffers]
    return [argument for pointer in pointers for argument in (pointer, len(pointer))]


def zeros(code, count):
    return array(code, [0]) * count


def held(code, numbers):
    """The numbers as an array of the type code: themselves where they are one, otherwise copied one by one."""
    if isinstance(numbers, array) and numbers.typecode == code:
        return numbers
    return array(code, iter(numbers))


class Bayer:
    """The library's calls. Samples and planes are arrays; a list or another sequence of numbers is taken too."""

    def __init__(self, path):
        library = self.library = ctypes.CDLL(path)
        library.bayer_read.argtypes = parameters(BYTES, SAMPLES)
        library.bayer_read.restype = ReadReturned
        library.bayer_write.argtypes = [Shape] + parameters(SAMPLES, BYTES)
        buffers = parameters(SAMPLES, NUMBERS, NUMBERS, NUMBERS, BYTES, NUMBERS)
        library.bayer_develop.argtypes = [Shape, c_size_t] + buffers
        library.bayer_clamp.argtypes = library.bayer_curve.argtypes = parameters(NUMBERS, NUMBERS)
        library.bayer_write.restype = library.bayer_develop.restype = Returned
        library.bayer_clamp.restype = library.bayer_curve.restype = Returned
        library.bayer_version.argtypes = []
        library.bayer_text.argtypes = library.bayer_decision_text.argtypes = [c_size_t]
        for text in (library.bayer_version, library.bayer_text, library.bayer_decision_text):
            text.restype = c_char_p

    def version(self):
        return self.library.bayer_version().decode()

    def decision_text(self, code):
        """What a code of the decision map says."""
        return self.library.bayer_decision_text(code).decode()

    def _accept(self, returned):
        if returned.number != 0:
            text = self.library.bayer_text(returned.number).decode()
            raise Refused(returned.number, returned.place, text)
        return returned

    def read(self, file):
        """The shape of the frame in a frame file, and its samples."""
        samples = zeros(SAMPLES, len(file) // BLOCK_BYTES * BLOCK_SAMPLES)
        read = self._accept(self.library.bayer_read(*lent(array(BYTES, file), samples)))
        return Shape(read.width, read.height, read.phase), samples[: read.width * read.height]

    def write(self, shape, samples):
        """The frame file of a frame."""
        later_blocks = (shape.width * shape.height + BLOCK_SAMPLES - 1) // BLOCK_SAMPLES
        file = zeros(BYTES, BLOCK_BYTES * (1 + later_blocks))
        self._accept(self.library.bayer_write(shape, *lent(held(SAMPLES, samples), file)))
        return bytes(file)

    def develop(self, shape, black, samples):
        """Three planes, unclamped, with the black level taken off each number, and the decision map: how the green of
        each site was decided."""
        count = len(samples)
        planes = [zeros(NUMBERS, count) for _ in range(3)]
        decisions, work = zeros(BYTES, count), zeros(NUMBERS, WORK_ENTRIES * count)
        buffers = lent(held(SAMPLES, samples), *planes, decisions, work)
        self._accept(self.library.bayer_develop(shape, black, *buffers))
        return planes, bytes(decisions)

    def clamp(self, plane):
        """The plane with each number held to 0..1,023."""
        clamped = zeros(NUMBERS, len(plane))
        self._accept(self.library.bayer_clamp(*lent(held(NUMBERS, plane), clamped)))
        return clamped

    def curve(self, plane):
        """The clamped plane by the square-root tone curve, as display panels show it."""
        curved = zeros(NUMBERS, len(plane))
        self._accept(self.library.bayer_curve(*lent(held(NUMBERS, plane), curved)))
        return curved


@contextmanager
def named(name):
    """Ends the program where the system refuses something, which is told under the name."""
    try:
        yield
    except OSError as error:
        sys.exit(f"{name}: {error.strerror}")


def opened(library):
    try:
        return Bayer(library)
    except (OSError, AttributeError) as error:  # no library at all, or one without these calls
        sys.exit(str(error))


def show(shape, planes):
    """Prints each site's place and colours."""
    with named("standard output"), open(STANDARD_OUTPUT, "w") as out:
        out.write("row col red green blue\n")
        for place, (red, green, blue) in enumerate(zip(*planes)):
            row, column = divmod(place, shape.width)
            out.write(f"{row} {column} {red} {green} {blue}\n")


def main(library, path):
    bayer = opened(library)
    with named(path), open(path, "rb") as stream:
        file = stream.read()
    shape, samples = bayer.read(file)
    planes, _ = bayer.develop(shape, BLACK, samples)
    show(shape, [bayer.curve(bayer.clamp(plane)) for plane in planes])


if __name__ == "__main__":
    if len(sys.argv) != 3:
        print("usage: develop_frame.py LIBRARY FILE", file=sys.stderr)
        sys.exit(2)
    try:
        main(sys.argv[1], sys.argv[2])
    except Refused as refused:
        sys.exit(str(refused))
    except MemoryError:
        sys.exit("out of memory")
