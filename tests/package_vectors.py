#!/usr/bin/env python3
"""Makes the packages that the rows over the packager's items are compared with, by the signer of lms_vectors.py.

They are put together straight from RFC 5652, RFC 4108, RFC 5280, section 4, and X.690; no code is shared with the crates.
Each key is of H5 and W4, its SEED and I have one octet throughout, and it signs with its first leaf.

    python3 tests/package_vectors.py        prints crates/judge_bench/src/vector.rt
"""

from judge_vectors import PERMITS, SHA_256, attributes, item, oid, signer_info
from path_vectors import CERT_SIGN, HSS, SIGN, Signer, authority, authority_key, der, subject_key

HELLO = b"hello"


# A name of one commonName, a UTF8String.
def name(text):
    return der(0x30, der(0x31, der(0x30, oid("550403"), der(0x0C, text))))


# A certificate of a key by another, with these extensions and the right to sign firmware packages.
def certificate(serial, issuer, subject, until, extensions, key, signer):
    validity = der(0x30, der(0x17, b"200101000000Z"), der(0x17, until))
    info = der(0x30, HSS, der(0x03, b"\x00", key.public()))
    tbs = der(0x30, der(0xA0, der(0x02, b"\x02")), der(0x02, bytes([serial])), HSS, name(issuer), validity, name(subject),
              info, der(0xA3, der(0x30, *extensions, PERMITS)))
    return der(0x30, tbs, HSS, der(0x03, b"\x00", signer.sign(tbs)))


# A package of `hello`, by a signer with this key identifier.
def package(signer, key_id, certificates=b""):
    info = signer_info(attributes(content=HELLO), signer, key_id)
    return item(info, certificates, content=HELLO, digests=SHA_256)


def show(comment, constant, octets):
    print("\n" + "\n".join("/// " + line for line in comment))
    print(f'pub const {constant}: &str = "\\')
    digits = octets.hex()
    for start in range(0, len(digits), 112):
        print("    " + digits[start:start + 112] + ("\\" if start + 112 < len(digits) else '";'))


def main():
    print("// Packages by another implementation: `tests/package_vectors.py` at the top of the repository\n// prints this file.")
    show(["The package 1.2.3.1 in version 7 for hardware 1.2.3, whose image is `hello`, by the key H5 W4 of",
          "octets 01 with its first leaf, and with the signer's key identifier A1; in hex."], "PLAIN",
         package(Signer(b"\x01", 3), b"\xa1"))
    root, upper, last = [Signer(bytes([octet]), 3) for octet in (1, 2, 3)]
    ca = certificate(2, b"root", b"ca", b"301231235959Z",
                     [subject_key(b"\xb2"), authority_key(b"\xa1"), authority(), CERT_SIGN], upper, root)
    own = certificate(3, b"ca", b"signer", b"401231235959Z",
                      [subject_key(b"\xb3"), authority_key(b"\xb2"), SIGN], last, upper)
    show(["The same by the key of octets 03 and with the identifier B3, and with two certificates: of that",
          "key, by the key of octets 02, and of this, by that of octets 01."], "TWO", package(last, b"\xb3", own + ca))


if __name__ == "__main__":
    main()
