"""Reads a control message in hexadecimal and writes it again in its shortest form, through the C interface by ctypes.

    tools/archive
    cc -shared -Wl,--whole-archive target/native/libexports.a -Wl,--no-whole-archive -o target/libmoq.so
    python3 examples/shortest.py 17 02 40 05
"""

import ctypes
import pathlib
import sys

root = pathlib.Path(__file__).resolve().parent.parent
moq = ctypes.CDLL(str(root / "target" / "libmoq.so"))
moq.moq_control_rewrite.restype = ctypes.c_uint64
moq.moq_control_rewrite.argtypes = [
    ctypes.c_char_p, ctypes.c_size_t,
    ctypes.POINTER(ctypes.c_uint8), ctypes.c_size_t,
    ctypes.POINTER(ctypes.c_uint64), ctypes.c_size_t,
]


def shortest(message):
    """The number that is answered, and with a 0 the bytes used, the shortest form and the type."""
    out = (ctypes.c_uint8 * max(1, len(message)))()
    info = (ctypes.c_uint64 * 3)()
    number = moq.moq_control_rewrite(message, len(message), out, len(out), info, 3)
    if number != 0:
        return number, None
    return 0, (info[0], bytes(out[: info[1]]), info[2])


if __name__ == "__main__":
    number, found = shortest(bytes.fromhex("".join(sys.argv[1:])))
    if found is None:
        print(number)
    else:
        used, form, kind = found
        print(number, used, form.hex(" "), hex(kind))
