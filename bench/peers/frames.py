"""Frames that are measured, of any shape: the same in every run."""
import numpy

SMALL = (619, 487)
LARGE = (2527, 2463)
SEED = 7


def detector(shape, random):
    """Poisson background of mean 5; a peak on one pixel in 5,000, its four neighbours raised (heights e^3 to e^11);
    bands of 17 rows of -1 from row 195 on, every 212 rows. As in bench/src/inputs/frames.rs."""
    pixels = random.poisson(5, shape).astype(numpy.int64).ravel()
    width, last = shape[1], pixels.size - 1
    peaks = numpy.flatnonzero(random.integers(0, 5_000, pixels.size) == 0)
    heights = numpy.exp(3 + 8 * random.random(peaks.size))
    numpy.add.at(pixels, peaks, heights.astype(numpy.int64))
    for step in (-width, -1, 1, width):
        near = peaks + step
        inside = (near >= 0) & (near <= last)
        numpy.add.at(pixels, near[inside], (heights / 4).astype(numpy.int64)[inside])
    pixels = pixels.reshape(shape)
    for first in range(195, shape[0], 212):
        pixels[first:first + 17] = -1
    return pixels


def noise(shape, random):
    """A random number of 32 bits, shifted right (its sign kept) by 25, 17, 4 or 1 at random."""
    words = random.integers(-2**31, 2**31, shape, dtype=numpy.int64)
    return words >> random.choice(numpy.array([25, 17, 4, 1]), shape)


def strong(shape, random):
    """Poisson about a smooth background of mean 200; one pixel in 20 is in a peak of 3 × 3 (heights e^5 to e^9)."""
    rows, columns = numpy.indices(shape)
    background = 200 + 40 * numpy.sin(6 * rows / shape[0]) * numpy.cos(6 * columns / shape[1])
    peaks = int(0.05 * rows.size / 9)
    row, column = random.integers(1, shape[0] - 1, peaks), random.integers(1, shape[1] - 1, peaks)
    heights = numpy.exp(random.uniform(5, 9, peaks))
    for down in (-1, 0, 1):
        for right in (-1, 0, 1):
            part = 0.5 ** (abs(down) + abs(right))
            numpy.add.at(background, (row + down, column + right), part * heights)
    return random.poisson(background).astype(numpy.int64)


def sparse(shape, random):
    """Zeros, and one pixel in 100 of a few counts."""
    counts = 1 + random.poisson(2, shape)
    return numpy.where(random.random(shape) < 0.01, counts, 0).astype(numpy.int64)


def mask(shape, random, masked):
    """Poisson of mean 5; of every ten runs of 64 pixels the last is masked."""
    pixels = random.poisson(5, shape).astype(numpy.int64).ravel()
    pixels[numpy.arange(pixels.size) // 64 % 10 == 9] = masked
    return pixels.reshape(shape)


MAKERS = {
    ("detector", "s32"): detector,
    ("sparse", "u8"): sparse,
    ("sparse", "u16"): sparse,
    ("sparse", "u32"): sparse,
    ("mask", "s32"): lambda shape, random: mask(shape, random, -1),
    ("mask", "u16"): lambda shape, random: mask(shape, random, 2**16 - 1),
    ("mask", "u32"): lambda shape, random: mask(shape, random, 2**32 - 1),
    ("strong", "s32"): strong,
    ("strong", "u16"): strong,
    ("noise", "s32"): noise,
}


def frame(kind, element_type, shape):
    """Pixels as int64, in rows."""
    return MAKERS[kind, element_type](shape, numpy.random.default_rng(SEED))
