#!/usr/bin/env python3
"""Makes the certificates that rule_rows holds, by the signer of lms_vectors.py.

Fields and extensions are put together straight from RFC 5280, section 4, and X.690; no code is shared with the crates.

    python3 tests/path_vectors.py           prints crates/rule_rows/src/path_vectors.rt
"""

from lms_vectors import Key, u32str


def der(tag, *parts):
    contents = b"".join(parts)
    size = len(contents)
    if size < 128:
        return bytes([tag, size]) + contents
    digits = size.to_bytes((size.bit_length() + 7) // 8, "big")
    return bytes([tag, 128 + len(digits)]) + digits + contents


HSS = der(0x30, der(0x06, bytes.fromhex("2a864886f70d0109100311")))
YEARS = der(0x30, der(0x17, b"250101000000Z"), der(0x17, b"261231235959Z"))
EXPIRED = der(0x30, der(0x17, b"200101000000Z"), der(0x17, b"201231235959Z"))


def name(text):
    return der(0x30, der(0x0C, text))


def extension(kind, value, critical=False):
    flag = der(0x01, b"\xff") if critical else b""
    return der(0x30, der(0x06, kind), flag, der(0x04, value))


def subject_key(octets):
    return extension(b"\x55\x1d\x0e", der(0x04, octets))


def authority_key(octets):
    return extension(b"\x55\x1d\x23", der(0x30, der(0x80, octets)))


def authority(path_len=None):
    limit = b"" if path_len is None else der(0x02, bytes([path_len]))
    return extension(b"\x55\x1d\x13", der(0x30, der(0x01, b"\xff"), limit), True)


def usage(bits):
    return extension(b"\x55\x1d\x0f", der(0x03, bits), True)


SIGN, CERT_SIGN = usage(b"\x07\x80"), usage(b"\x02\x04")
NAME_CONSTRAINTS = extension(b"\x55\x1d\x1e", der(0x30), True)


class Signer:
    def __init__(self, letter, ots=4):
        self.key, self.leaf = Key(letter * 32, letter * 16, 5, ots), 0

    def public(self):
        return u32str(1) + self.key.public()

    def sign(self, octets):
        self.leaf += 1
        return u32str(0) + self.key.sign(self.leaf - 1, octets)


# A certificate; without a signer its key and its signature have no octets.
def certificate(issuer, subject, extensions=(), validity=YEARS, signer=None, key=b""):
    v3 = der(0xA0, der(0x02, b"\x02")) if extensions else b""
    rest = der(0xA3, der(0x30, *extensions)) if extensions else b""
    algorithm = HSS if signer else der(0x30)
    info = der(0x30, algorithm, der(0x03, b"\x00", key))
    tbs = der(0x30, v3, der(0x02, b"\x01"), algorithm, name(issuer), validity, name(subject), info, rest)
    return der(0x30, tbs, algorithm, der(0x03, b"\x00", signer.sign(tbs) if signer else b""))


def show(comment, constant, octets):
    print(f"\n// {comment}\npub(crate) const {constant}: &[u8] = b\"\\")
    for start in range(0, len(octets), 23):
        row = "".join(f"\\x{octet:02x}" for octet in octets[start:start + 23])
        print("    " + row + ("\\" if start + 23 < len(octets) else '";'))


def main():
    root, first, second, last = [Signer(letter) for letter in (b"r", b"1", b"2", b"s")]
    letters = [bytes([letter]) for letter in b"rabcdefghi"]
    names = list(zip(letters, letters[1:]))
    print("// Certificates, one after the other, made by `tests/path_vectors.py` at the top of the repository.")
    show("The key of the anchor `r`, of H5 and W8.", "ROOT_KEY", root.public())
    show("Nine under r, each issued by the one before it.", "NINE", b"".join(certificate(*pair) for pair in names))
    show("Two of one issuer and serial number, the first expired.", "EXPIRED_FIRST",
         certificate(b"r", b"a", validity=EXPIRED) + certificate(b"r", b"b"))
    show("One that names its authority's key, and two authorities of that name with other keys.", "KEYED",
         certificate(b"c", b"s", [authority_key(b"B2")])
         + b"".join(certificate(b"r", b"c", [authority(), subject_key(key)]) for key in (b"B1", b"B2")))
    show("One with keyUsage twice.", "USAGE_TWICE",
         certificate(b"r", b"a", [SIGN, SIGN]))
    show("One with a critical extension that isn't known.", "NAME_CONSTRAINED",
         certificate(b"r", b"a", [NAME_CONSTRAINTS]))
    one = certificate(b"r", b"c", [authority(0), CERT_SIGN, subject_key(b"C1"), authority_key(b"R")],
                      signer=root, key=first.public())
    new = certificate(b"c", b"c", [authority(), CERT_SIGN, subject_key(b"C2"), authority_key(b"C1")],
                      signer=first, key=der(0x04, second.public()))
    signed = certificate(b"c", b"s", [SIGN, subject_key(b"S"), authority_key(b"C2")],
                         signer=second, key=last.public())
    show("A signer under an authority with a new key, issued by itself, which has pathLen 0 under r.", "NEW_KEY",
         signed + new + one)
    between = certificate(b"c", b"d", [authority(), subject_key(b"D"), authority_key(b"C2")])
    under = certificate(b"d", b"s", [SIGN, subject_key(b"S"), authority_key(b"D")])
    unsigned = [certificate(b"c", b"c", [authority(), CERT_SIGN, subject_key(b"C2"), authority_key(b"C1")]),
                certificate(b"r", b"c", [authority(0), CERT_SIGN, subject_key(b"C1"), authority_key(b"R")])]
    show("The same with another authority above the signer; nothing is signed.", "TOO_LONG",
         under + between + b"".join(unsigned))


if __name__ == "__main__":
    main()
