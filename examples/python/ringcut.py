"""Cuts a rectangle that lies across the east bound of a tile, the frame in line 2 of examples/frames.hex, by the library's frame call.
Python loads shared objects alone, so one is made of the static library. In the repository's root, with the library built by
`sh scripts/build ringcut_calls`:

    cc -shared -o libringcut.so -Wl,--whole-archive target/staticlib/libringcut_calls.a -Wl,--no-whole-archive
    python3 examples/python/ringcut.py ./libringcut.so

With a library that `sh scripts/install PREFIX` has installed, write PREFIX/lib in place of target/staticlib.

It prints the library's version and each corner of the cut with its origin, which is its number in the ring that was sent, or from 65532
on a bound that made it (65533 is the east bound):

    ringcut 1.0.0
    5.0 5.0 0
    10.0 5.0 65533
    10.0 8.0 65533
    5.0 8.0 3
    5.0 5.0 0
"""

import ctypes
import pathlib
import struct
import sys

MOST_FRAME_OUTPUT = 56259  # bytes, enough for every frame

if len(sys.argv) != 2:
    sys.exit("usage: ringcut.py LIBRARY, the path of a shared object, as ./libringcut.so")
library = ctypes.CDLL(sys.argv[1])
library.ringcut_frame.argtypes = [ctypes.c_char_p, ctypes.c_size_t, ctypes.c_char_p, ctypes.c_size_t]
library.ringcut_frame.restype = ctypes.c_int64
version = library.ringcut_version()
print(f"ringcut {version // 1000000}.{version // 1000 % 1000}.{version % 1000}")

frames = pathlib.Path(__file__).parent.parent / "frames.hex"
frame = bytes.fromhex(frames.read_text().splitlines()[1])
out = ctypes.create_string_buffer(MOST_FRAME_OUTPUT)
length = library.ringcut_frame(frame, len(frame), out, len(out))
if length < 0:
    sys.exit(f"refusal {-length}")
# This answer has one part, cut to one ring, and the ring's coordinates begin at its 14th byte. README.md has the bytes of all answers.
for x, y, origin in struct.iter_unpack("<ddH", out.raw[13:length]):
    print(x, y, origin)
