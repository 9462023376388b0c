#!/usr/bin/env python3
"""Makes what the rows of `load` are compared with, by the signer of lms_vectors.py: answers, flash contents and packages.

Answers are put together straight from RFC 4108, sections 4.1 and 4.2, and RFC 5652, section 5; flash contents from the
ASN.1 in docs/FORMATS.md; no code is shared with the crates. The module's key is of H5 and W4 with SEED and I of octets 00;
it trusts the key of octets 01 under the name `root` and with the key identifier A1.

    python3 tests/load_vectors.py           prints crates/load_rows/src/vectors.rt
"""

from hashlib import sha256

from judge_vectors import SHA_256, attribute, attributes, item, oid, package_name, signer_info
from lms_vectors import Key, u32str
from package_vectors import certificate
from path_vectors import CERT_SIGN, SIGN, Signer, authority, authority_key, der, subject_key

RECEIPT, ERROR = [oid("2a864886f70d01091001" + last) for last in ("11", "12")]
HARDWARE = oid("2a03") + der(0x04, b"\x00\x01")


def integer(number):
    return der(0x02, number.to_bytes(number.bit_length() // 8 + 1, "big"))


# RFC 4108, section 4.1.
def receipt(last, version):
    return RECEIPT, der(0x30, HARDWARE, package_name(last, version), der(0x04, b"\xa1"))


# RFC 4108, section 4.2; the current configuration has entries (type, name).
def error(code, vendor, name=b"", config=None):
    entries = b"" if config is None else der(0xA1, *[der(0x30, kind, entry) for kind, entry in config])
    return ERROR, der(0x30, HARDWARE, der(0x0A, bytes([code])), integer(vendor), name, entries)


def plain(answer):
    kind, text = answer
    return der(0x30, kind, der(0xA0, text))


class Module:
    def __init__(self):
        self.signer = Signer(b"\x00", 3)
        self.key_id = sha256(self.signer.public()).digest()[:20]

    def signed(self, answer):
        kind, text = answer
        values = sorted([attribute("03", kind), attribute("04", der(0x04, sha256(text).digest()))])
        return item(signer_info(values, self.signer, self.key_id), content=text, kind=kind, digests=SHA_256)


# A module's answers, each with the next leaf.
def signed(*answers):
    module = Module()
    return b"".join(module.signed(answer) for answer in answers)


def installed(name, blocks, image=None, kind=b"", needs=()):
    digest = bytes(32) if image is None else sha256(image).digest()
    size = len(image) if image is not None else 4096 * len(blocks)
    numbers = b"".join(block.to_bytes(2, "big") for block in blocks)
    return name + der(0x04, digest) + integer(size) + der(0x04, numbers), kind + der(0x30, *needs)


def manifest(version, sequence, packages, stale=()):
    entries = [der(0x30, front, behind if version == 2 else b"") for front, behind in packages]
    return der(0x30, integer(version), integer(sequence), der(0x30, *entries), der(0x30, *stale))


# A key of two levels, both of H5 and W8, which signs as one.
class TwoLevels:
    def __init__(self):
        self.upper, self.lower = [Key(bytes([octet]) * 32, bytes([octet]) * 16, 5, 4) for octet in (0x61, 0x62)]

    def public(self):
        return u32str(2) + self.upper.public()

    def sign(self, octets):
        return u32str(1) + self.upper.sign(0, self.lower.public()) + self.lower.public() + self.lower.sign(0, octets)


# A key of H10 and W4.
class Tall:
    def __init__(self, octet):
        self.key = Key(octet * 32, octet * 16, 6, 3)

    def public(self):
        return u32str(1) + self.key.public()

    def sign(self, octets):
        return u32str(0) + self.key.sign(1000, octets)


# A package of 4,194,304 octets 5A under two certificates, with a signing time and an attribute of an unknown type: the
# octets before and behind its content.
def large():
    content = b"\x5a" * 4_194_304
    root, upper, last = Signer(b"\x01", 3), Signer(b"\x02", 3), Tall(b"\x03")
    ca = certificate(2, b"root", b"ca", b"301231235959Z",
                     [subject_key(b"\xb2"), authority_key(b"\xa1"), authority(), CERT_SIGN], upper, root)
    own = certificate(3, b"ca", b"signer", b"401231235959Z",
                      [subject_key(b"\xb3"), authority_key(b"\xb2"), SIGN], last, upper)
    others = [attribute("05", der(0x17, b"250101000000Z")),
              der(0x30, oid("2b060104018f5101"), der(0x31, der(0x05)))]
    info = signer_info(attributes(content=content, others=others), last, b"\xb3")
    whole = item(info, own + ca, content=content, digests=SHA_256)
    return whole.split(content)


def text(digits, width=112):
    rows = [digits[start:start + width] for start in range(0, len(digits), width)]
    return "\\\n    ".join(rows)


def show(comment, constant, digits):
    print("\n" + "\n".join("// " + line for line in comment))
    print(f'pub(crate) const {constant}: &str = "\\\n    {text(digits)}";')


def show_digest(comment, constant, octets):
    show(comment, constant, sha256(octets).digest().hex())


PLAIN_3 = "301f060b2a864886f70d0109100112a010300e06022a03040200010a0101020101"
PLAIN_21 = ("3037060b2a864886f70d0109100112a028302606022a03040200010a011f020122300806032a0301020107a10c300a300806032a03020201"
            "04")
PLAIN_26 = "3026060b2a864886f70d0109100111a017301506022a0304020001300806032a03010201070401a1"
BREAKS = ("3043060b2a864886f70d0109100112a034303206022a03040200010a0124020124300806032a0302020103a118300a300806032a03020201"
          "04300a300806032a0303020101")
BREAKS_KIND = ("3046060b2a864886f70d0109100112a037303506022a03040200010a0124020124300806032a0302020103a11b300a300806032a0302"
               "020104300d020101300806032a0303020101")
FIRST_MANIFEST = ("304102010202010130373035300806032a03010201070420" + sha256(b"hello").hexdigest() + "0201050402000030003000")


def main():
    one, two, three = [(lambda version, last=last: package_name(last, version)) for last in (1, 2, 3)]
    needed = installed(two(4), [0])
    needing = installed(three(1), [1], needs=[two(4)])
    typed = installed(three(1), [1], kind=integer(1), needs=[two(4)])
    alone, both = [(b"", two(4))], [(b"", two(4)), (b"", three(1))]
    # worked octets that stand in the rows themselves
    assert plain(error(1, 1)).hex() == PLAIN_3
    assert plain(error(31, 34, one(7), alone)).hex() == PLAIN_21
    assert plain(receipt(1, 7)).hex() == PLAIN_26
    assert plain(error(36, 36, two(3), both)).hex() == BREAKS
    assert plain(error(36, 36, two(3), [(b"", two(4)), (integer(1), three(1))])).hex() == BREAKS_KIND
    assert manifest(2, 1, [installed(one(7), [0], b"hello")]).hex() == FIRST_MANIFEST
    first = signed(receipt(1, 7))
    assert len(first) == 2579 and first.hex().startswith("30820a0f06092a864886f70d010702a0820a00308209fc020103")

    print("// Answers, flash contents and packages by another implementation: `tests/load_vectors.py` at the top of the\n"
          "// repository prints this file. All are in hex.")
    show(["The receipt of 1.2.3.1 version 7, signed with the module's first leaf."], "RECEIPT", first.hex())
    print("\n// ---- SHA-256 of answers, one after the other, each signed with the next leaf")
    refused = error(28, 33, one(5))
    show_digest(["Receipts of 1.2.3.1 version 4 and 1.2.3.2 version 1, the refusal of 1.2.3.1 version 5 as stale, and two",
                 "receipts of version 6."], "STALE_ANSWERS",
                signed(receipt(1, 4), receipt(2, 1), refused, receipt(1, 6), receipt(1, 6)))
    outside = error(29, 31, one(7))
    show_digest(["A receipt of 1.2.3.1 version 7, and two refusals of it for other communities."], "COMMUNITY_ANSWERS",
                signed(receipt(1, 7), outside, outside))
    show_digest(["A receipt of 1.2.3.1 version 7, and the refusal of 1.2.3.2 version 1 for want of blocks."], "ROOM_ANSWERS",
                signed(receipt(1, 7), error(33, 38, two(1))))
    show_digest(["The refusal of 1.2.3.1 version 7 for an empty image."], "EMPTY_ANSWER", signed(error(34, 37, one(7))))
    show_digest(["The same for the last sequence number."], "LAST_ANSWER", signed(error(99, 41, one(7))))
    show_digest(["32 receipts of 1.2.3.1 version 7, and one that isn't signed."], "SPENT_ANSWERS",
                signed(*[receipt(1, 7)] * 32) + plain(receipt(1, 7)))
    show_digest(["1,000 refusals of 1.2.3.1 version 7 for its signature, none of which is signed."], "BENT_ANSWERS",
                plain(error(15, 29, one(7))) * 1000)

    show_digest(["A receipt of that, and its refusal for its signature, which isn't signed."], "BENT_BEHIND",
                first + plain(error(15, 29, one(7))))

    print("\n// ---- manifests")
    show(["Of format 2 with sequence number 1: 1.2.3.2 version 4."], "NEEDED", manifest(2, 1, [needed]).hex())
    show(["With sequence number 2: the same and 1.2.3.3 version 1, which needs it."], "NEEDING",
         manifest(2, 2, [needed, needing]).hex())
    show(["The same with 1.2.3.3 of type 1."], "NEEDING_OF_TYPE", manifest(2, 2, [needed, typed]).hex())
    show(["The same two of format 1, which keeps neither types nor needs."], "OLD_NEEDING",
         manifest(1, 2, [needed, needing]).hex())
    bare = installed(three(1), [1])
    show(["What is written over that for 1.2.3.2 version 3, whose image is the octet 68: of format 2."], "OVER_OLD",
         manifest(2, 3, [installed(two(3), [2], b"h"), bare]).hex())
    show(["Of format 1 with sequence number 5: 1.2.3.2 version 4."], "OLD", manifest(1, 5, [needed]).hex())
    show(["Of format 2 with the last sequence number and no package."], "LAST", manifest(2, 2**64 - 1, []).hex())

    print("\n// ---- packages")
    levels = TwoLevels()
    show(["A key of two levels, each of H5 and W8 (RFC 8554, section 6.1)."], "LEVELS_KEY", levels.public().hex())
    show(["The package 1.2.3.1 version 7 whose image is `hello`, by that key, with the key identifier A1."], "LEVELS",
         item(signer_info(attributes(content=b"hello"), levels, b"\xa1"), content=b"hello", digests=SHA_256).hex())
    front, behind = large()
    show(["The same under two certificates by a key of H10 and W4, with a signing time and an attribute of an unknown type,",
          "whose image is 4,194,304 octets 5A: the octets before its content."], "LARGE_FRONT", front.hex())
    show(["The octets behind its content."], "LARGE_BEHIND", behind.hex())


if __name__ == "__main__":
    main()
