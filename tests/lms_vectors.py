#!/usr/bin/env python3
"""Makes the vectors of LMS and HSS that sign_rows, text_rows, run_rows and judge_bench hold.

A plain signer straight from the equations of RFC 8554 (sections 3.1.3, 4.3 to 4.5, 5.3, 5.4.1 and Appendix A), which
shares no code with the crates. Secrets and the randomizer C follow from SEED as in Appendix A, C as the secret of
number FFFD. So it makes the signature of Appendix F, test case 2, from the seeds that stand there, and its first
octets are compared below with those of the standard. The seeds of test case 1 aren't in the standard, and nothing
here makes it again.

    python3 tests/lms_vectors.py            prints each vector in hexadecimal, under its name
"""

from hashlib import sha256

# typecode: width w, count p of chains, left shift ls (section 4.1); and the height h of a tree (section 5.1)
ONE_TIME = {1: (1, 265, 7), 2: (2, 133, 6), 3: (4, 67, 4), 4: (8, 34, 0)}
HEIGHT = {5: 5, 6: 10}


def digest(*parts):
    return sha256(b"".join(parts)).digest()


def u32str(number):
    return number.to_bytes(4, "big")


def u16str(number):
    return number.to_bytes(2, "big")


def chain(identifier, q, i, start, end, value):
    for j in range(start, end):
        value = digest(identifier, u32str(q), u16str(i), bytes([j]), value)
    return value


def coef(octets, i, w):
    return octets[i * w // 8] >> (8 - w - i * w % 8) & (1 << w) - 1


def digits(value, ots):
    w, p, ls = ONE_TIME[ots]
    checksum = sum((1 << w) - 1 - coef(value, i, w) for i in range(256 // w)) << ls
    return [coef(value + u16str(checksum), i, w) for i in range(p)]


def candidate(identifier, q, ots, value, values):
    last = (1 << ONE_TIME[ots][0]) - 1
    ends = [chain(identifier, q, i, d, last, values[i]) for i, d in enumerate(digits(value, ots))]
    return digest(identifier, u32str(q), b"\x80\x80", *ends)


def leaf_value(identifier, r, key):
    return digest(identifier, u32str(r), b"\x82\x82", key)


def inner_value(identifier, m, left, right):
    return digest(identifier, u32str(m), b"\x83\x83", left, right)


def message_value(identifier, q, randomizer, message):
    return digest(identifier, u32str(q), b"\x81\x81", randomizer, message)


class Key:
    def __init__(self, seed, identifier, lms, ots):
        self.seed, self.id, self.lms, self.ots = seed, identifier, lms, ots
        w, p, _ = ONE_TIME[ots]
        leaves = 1 << HEIGHT[lms]
        self.nodes = {}
        for r in range(2 * leaves - 1, 0, -1):
            if r < leaves:
                self.nodes[r] = inner_value(identifier, r, self.nodes[2 * r], self.nodes[2 * r + 1])
            else:
                q = r - leaves
                ends = [chain(identifier, q, i, 0, (1 << w) - 1, self.secret(q, i)) for i in range(p)]
                one_time = digest(identifier, u32str(q), b"\x80\x80", *ends)
                self.nodes[r] = leaf_value(identifier, r, one_time)

    def secret(self, q, i):
        return digest(self.id, u32str(q), u16str(i), b"\xff", self.seed)

    def public(self):
        return u32str(self.lms) + u32str(self.ots) + self.id + self.nodes[1]

    def sign(self, q, message):
        randomizer = self.secret(q, 0xFFFD)
        value = message_value(self.id, q, randomizer, message)
        values = [chain(self.id, q, i, 0, d, self.secret(q, i)) for i, d in enumerate(digits(value, self.ots))]
        r = (1 << HEIGHT[self.lms]) + q
        path = [self.nodes[r >> i ^ 1] for i in range(HEIGHT[self.lms])]
        one_time = u32str(q) + u32str(self.ots) + randomizer + b"".join(values)
        return one_time + u32str(self.lms) + b"".join(path)


# The root to which a signature of octets 5A leads from leaf q, inside the tree or not.
def reached(q, message):
    identifier, filled, ots, height = bytes(range(16)), b"\x5a" * 32, 4, 5
    value = message_value(identifier, q, filled, message)
    r = (1 << height) + q
    node = leaf_value(identifier, r, candidate(identifier, q, ots, value, [filled] * 34))
    for i in range(height):
        pair = (node, filled) if (r >> i) % 2 == 0 else (filled, node)
        node = inner_value(identifier, r >> i + 1, *pair)
    return node


def show(name, octets):
    print(f"{name} ({len(octets)} octets)\n{octets.hex()}")


def main():
    octets = bytes.fromhex
    seed, identifier = bytes(range(0x40, 0x60)), bytes(range(16))
    upper = Key(octets("558b8966c48ae9cb898b423c83443aae014a72f1b1ab5cc85cf1d892903b5439"),
                octets("d08fabd4a2091ff0a8cb4ed834e74534"), 6, 3)
    lower = Key(octets("a1c4696e2608035a886100d05cd99945eb3370731884a8235e2fb3d4d71f2547"),
                octets("215f83b7ccb9acbcd08db97b0d04dc2b"), 5, 4)
    message = (b"The enumeration in the Constitution, of certain rights, shall not be construed to deny or "
               b"disparage others retained by the people.\n")
    first, last = upper.sign(3, lower.public()), lower.sign(4, message)
    # C of both levels and y[0] of the upper one, as they stand in Appendix F
    assert first[8:40] == octets("3d46bee8660f8f215d3f96408a7a64cf1c4da02b63a55f62c666ef5707a914ce")
    assert first[40:72] == octets("0674e8cb7a55f0c48d484f31f3aa4af9719a74f22cf823b94431d01c926e2a76")
    assert last[8:40] == octets("0eb1ed54a2460d512388cad533138d240534e97b1e82d33bd927d201dfc24ebb")
    show("Appendix F, test case 2: public key", u32str(2) + upper.public())
    show("Appendix F, test case 2: signature", u32str(1) + first + lower.public() + last)
    show("Appendix F, test case 2: key of the lower level", lower.public())
    show("Appendix F, test case 2: signature of the lower level", last)
    for name, key, q, text in [("lower", lower, 4, message), ("upper", upper, 3, lower.public())]:
        show(f"digest of the HSS signature of the {name} key alone", digest(u32str(0) + key.sign(q, text)))
    for ots in [1, 2]:
        key = Key(seed, identifier, 5, ots)
        show(f"digest of an HSS signature of 'message', H5 and LM-OTS typecode {ots}", digest(u32str(0) + key.sign(5, b"message")))
    for q in [31, 32]:
        show(f"the root to which octets 5A lead from leaf {q}", reached(q, b"message"))
    show("chain 66 of leaf 5 from place 3 to place 15", chain(identifier, 5, 66, 3, 15, seed))
    show("leaf node 37", leaf_value(identifier, 37, seed))
    show("inner node 18", inner_value(identifier, 18, seed, b"\x5a" * 32))
    show("message value of 'ab' at leaf 9", message_value(identifier, 9, seed, b"ab"))
    for octet in range(1, 6):
        public = u32str(1) + Key(bytes([octet] * 32), bytes([octet] * 16), 5, 3).public()
        show(f"public key, H5 and W4, of SEED and I of octets {octet:02}", public)
        show("its key identifier", digest(public)[:20])


if __name__ == "__main__":
    main()
