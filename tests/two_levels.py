#!/usr/bin/env python3
"""Makes the input of `sigcheck` that run_rows and ./demo hold, by the signer of lms_vectors.py.

It is a SEQUENCE of three OCTET STRINGs: an HSS key of two levels, the message `firmware`, and its signature (RFC 8554,
section 6). Both levels are of H5 and W8. The upper key signs the lower one with leaf 5, which signs with leaf 6.

    python3 tests/two_levels.py             prints examples/two_levels.hex
"""

from lms_vectors import Key, u32str
from path_vectors import der


def main():
    message = b"firmware"
    upper = Key(bytes(range(0x60, 0x80)), bytes(range(0x10, 0x20)), 5, 4)
    lower = Key(bytes(range(0x80, 0xA0)), bytes(range(0x20, 0x30)), 5, 4)
    signature = u32str(1) + upper.sign(5, lower.public()) + lower.public() + lower.sign(6, message)
    parts = [der(0x04, part) for part in (u32str(2) + upper.public(), message, signature)]
    digits = der(0x30, *parts).hex()
    for start in range(0, len(digits), 96):
        print(digits[start:start + 96])


if __name__ == "__main__":
    main()
