#!/usr/bin/env python3
"""Makes the items and modules that the tests of verdict_rows hold, by the signer of lms_vectors.py.

Everything is put together straight from RFC 5652, RFC 4108, RFC 5280, section 4, and X.690; no code is shared with the crates.

    python3 tests/judge_vectors.py          prints crates/verdict_rows/src/vectors.rt
"""

from hashlib import sha256

from path_vectors import EXPIRED, HSS, SIGN, Signer, certificate, der, extension, name, show, subject_key, usage


def oid(text):
    return der(0x06, bytes.fromhex(text))


CMS = "2a864886f70d0109"
DATA, SIGNED, ENCRYPTED, COMPRESSED, FIRMWARE = [
    oid(octets) for octets in ("2a864886f70d010701", "2a864886f70d010702", "2a864886f70d010706", CMS + "100109", CMS + "100110")]
SHA_256 = der(0x30, oid("608648016503040201"))
SHA_512 = der(0x30, oid("608648016503040203"))
WRAPPED = b"\x04\x05hello"
PERMITS = extension(bytes.fromhex("2b06010505070112"), der(0x30, der(0x30, FIRMWARE)))
TOO_MANY = 1048577
NONE_SIGNS = usage(b"\x02\x04")


def attribute(kind, value):
    return der(0x30, oid(CMS + kind), der(0x31, value))


def package_name(last, version):
    return der(0x30, oid(f"2a03{last:02x}"), der(0x02, bytes([version])))


def attributes(content=WRAPPED, kind=FIRMWARE, digest=None, target="2a03", others=()):
    first = [attribute("03", kind), attribute("04", der(0x04, digest or sha256(content).digest())),
             attribute("100223", der(0x30, package_name(1, 7)))]
    targets = [attribute("100224", der(0x30, oid(target)))] if target else []
    return sorted(first + targets + list(others))


def signer_info(attrs, signer, key_id, version=3, digest=SHA_256, algorithm=HSS, behind=b""):
    contents = b"".join(attrs)
    signature = signer.sign(der(0x31, contents)) if signer else b"\x00"
    return der(0x30, der(0x02, bytes([version])), der(0x80, key_id), digest, der(0xA0, contents), algorithm,
               der(0x04, signature), behind)


def item(info, certs=b"", content=WRAPPED, kind=FIRMWARE, version=3, encap=None, outer=SIGNED, digests=b""):
    encap = encap or der(0x30, kind, der(0xA0, der(0x04, content)))
    certs = der(0xA0, certs) if certs else b""
    data = der(0x30, der(0x02, bytes([version])), der(0x31, digests), encap, certs, der(0x31, info))
    return der(0x30, outer, der(0xA0, data))


def module(hw_type="2a03", communities=("2a0364",), kinds=(1,), capacity=16):
    anchor = der(0x30, name(b"r"), der(0x04, b"R"), der(0x04, ROOT.public()))
    key = der(0x30, der(0x02, b"\x05"), der(0x02, b"\x04"), der(0x04, bytes(32)), der(0x04, bytes(16)))
    return der(0x30, der(0x02, b"\x01"), oid(hw_type), der(0x04, b"\x00\x01"), der(0x30, *[oid(c) for c in communities]),
               der(0x30, *[der(0x02, bytes([k])) for k in kinds]), der(0x02, bytes([capacity])), der(0x30, anchor), key)


ROOT, FIRST = Signer(b"r"), Signer(b"s")


def signed_by(*extensions, **others):
    return certificate(b"r", b"s", [subject_key(b"S"), *extensions], **others)


def main():
    good = attributes()
    info = signer_info(good, None, b"S")
    plain = signed_by(SIGN, PERMITS)
    needs = attribute("10022a", der(0x30, der(0x02, b"\x01"), der(0x30, package_name(9, 2))))
    community = attribute("100228", der(0x30, oid("2a0364")))
    rules = attributes(others=(needs, community))
    empty = attributes(content=b"")

    print("// Items and modules, made by `tests/judge_vectors.py` at the top of the repository.")
    show("Hardware type 1.2.3, serial number 0001, community 1.2.3.100, type 1, under the anchor `r`.", "MODULE", module())
    show("The same with room for one block.", "SMALL", module(capacity=1))
    show("The same for hardware type 1.2.4.", "OTHER_HARDWARE", module(hw_type="2a04"))
    show("The same in no community.", "NO_COMMUNITY", module(communities=()))
    show("The same without a type.", "NO_TYPE", module(kinds=()))
    show("1.2.3.1 in version 7 for 1.2.3, with the image `hello`, by a signer under r.", "GOOD",
         item(signer_info(good, FIRST, b"S"), signed_by(SIGN, PERMITS, signer=ROOT, key=FIRST.public())))
    show("The same by r, whose anchor has no certificate.", "BY_ANCHOR", item(signer_info(good, ROOT, b"R")))
    show("The same for the community, of type 1, which needs 1.2.3.9 in version 2.", "WITH_RULES",
         item(signer_info(rules, ROOT, b"R")))
    show("The same without an octet of an image.", "EMPTY", item(signer_info(empty, ROOT, b"R"), content=b""))
    show("The attributes of the first, one after the other.", "ATTRIBUTES", b"".join(good))
    show("They don't say which hardware they are for.", "NO_TARGETS", b"".join(attributes(target=None)))
    encap = der(0x30, FIRMWARE, der(0xA0, der(0x04, WRAPPED)))
    data = der(0x30, der(0x02, b"\x03"), der(0x31), encap, der(0x31, bytes(TOO_MANY)))
    show("What stands before 1,048,577 octets of an item that fails condition 11 first.", "FRONT_11",
         der(0x30, SIGNED, der(0xA0, data))[:-TOO_MANY])
    failing = [
        (3, der(0x30, SIGNED)),
        (4, item(info, outer=DATA)), (5, item(info, version=2)),
        (6, item(info, encap=der(0x30, FIRMWARE, der(0xA0, der(0x05))))), (7, item(info, kind=ENCRYPTED)),
        (8, item(info, kind=COMPRESSED)), (9, item(info, kind=DATA)), (10, item(info, encap=der(0x30, FIRMWARE))),
        (12, item(info, der(0x30))), (13, item(info + info)), (14, item(signer_info(good, None, b"S", version=2))),
        (15, item(signer_info(good, None, b"S", behind=der(0xA1, der(0x05))))),
        (16, item(signer_info(good[::-1], None, b"S"))), (17, item(signer_info(good, None, b"S", digest=SHA_512))),
        (18, item(signer_info(good, None, b"S", algorithm=SHA_256))),
        (19, item(signer_info(attributes(target=None), None, b"S"))),
        (20, item(signer_info(attributes(kind=DATA), None, b"S"))),
        (21, item(signer_info(attributes(digest=sha256(b"\x04\x07" + WRAPPED).digest()), None, b"S"))),
        (22, item(signer_info(good, None, b"T"), plain)),
    ]
    for number, octets in failing:
        show(f"Fails condition {number} first.", f"FAILS_{number}", octets)
    serial = der(0x30, name(b"r"), der(0x02, b"\x01"))
    for number, cert in [
        (23, certificate(b"r", b"s", [SIGN, SIGN])), (24, certificate(b"r", b"s", [SIGN], validity=EXPIRED)),
        (25, certificate(b"r", b"s", [NONE_SIGNS])), (26, certificate(b"r", b"s", [SIGN])),
    ]:
        show(f"Fails condition {number} first.", f"FAILS_{number}", item(by_serial(good, serial), cert))
    show("Fails condition 27 first.", "FAILS_27", item(info, signed_by(SIGN, PERMITS, signer=FIRST, key=FIRST.public())))
    show("Fails condition 28 first.", "FAILS_28", item(info, signed_by(SIGN, signer=ROOT, key=FIRST.public())))


# A signer that is named by issuer and serial number; its signature has one octet.
def by_serial(attrs, serial):
    return der(0x30, der(0x02, b"\x01"), serial, SHA_256, der(0xA0, b"".join(attrs)), HSS, der(0x04, b"\x00"))


if __name__ == "__main__":
    main()
