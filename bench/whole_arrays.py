"""What a person with NumPy would use instead of a searcher: whole-array operations, one point after the other.

A server on its standard input and output; bench/numpy.rs is the other side. 'r' brings a row: delta, gamma, m and n in 4 bytes each,
then the points and the recording. 's' asks for one search of that row, and is answered by its time in nanoseconds (8 bytes), the
total of places (4) and the places (4 each). Numbers go low byte first. The end of the input ends it.
"""

import struct
import sys
import time

import numpy as np


def search(points, delta, gamma, recording):
    """The places, in rising order. This is the fastest of the plain forms that were tried: 16-bit numbers, and the greatest difference of each
    window rather than a truth value for it, since NumPy combines those more slowly. A 0 fits nothing, so each is made a reading that no delta
    reaches, once for all windows."""
    windows = len(recording) + 1 - len(points)
    # 512 is 257 or more from every point, and 64 differences of at most 511 stay below 2^15
    readings = recording.astype(np.int16)
    readings[recording == 0] = 512
    greatest = np.zeros(windows, dtype=np.int16)
    total = np.zeros(windows, dtype=np.int16)
    for i, point in enumerate(points.astype(np.int16)):
        difference = np.abs(readings[i : i + windows] - point)
        np.maximum(greatest, difference, out=greatest)
        total += difference
    return np.flatnonzero((greatest <= delta) & (total <= gamma))


def main():
    # the C library hands the memory of an array back to the system and asks for it again, search after search, until it has once seen a
    # larger piece freed: without this NumPy takes twice as long
    np.zeros(3_000_000, dtype=np.int64)
    asked, answered = sys.stdin.buffer, sys.stdout.buffer
    while word := asked.read(1):
        if word == b"r":
            delta, gamma, m, n = struct.unpack("<4I", asked.read(16))
            points = np.frombuffer(asked.read(m), dtype=np.uint8)
            recording = np.frombuffer(asked.read(n), dtype=np.uint8)
            continue
        # the recording is read once before the time begins, as it is for every other program
        recording.max()
        start = time.perf_counter()
        places = search(points, delta, gamma, recording)
        took = time.perf_counter() - start
        answered.write(struct.pack("<QI", round(took * 1e9), len(places)))
        answered.write(places.astype("<u4").tobytes())
        answered.flush()


main()
