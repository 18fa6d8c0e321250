#!/usr/bin/env python3
"""Writes signatures.txt, structures.txt and keys.txt from the private keys in keys/, which OpenSSL made for these tests alone.

    python3 tests/vectors/make.py            writes the three files
    python3 tests/vectors/make.py --check    says whether they are as it would write them

RFC 8017 by its text, with Python's own numbers: sections 8.2.1 (signing), 9.1 (PSS) and 9.2 (EMSA-PKCS1-v1_5), appendix A.1.1.
A block begins with [bits-exponent]; every other line is a name, an equals sign and a value.
"""

import base64
import hashlib
import math
import pathlib
import sys

HERE = pathlib.Path(__file__).parent
SHA_256 = bytes.fromhex("3031300d060960864801650304020105000420")


# ---- DER

def element(tag, content):
    return bytes([tag]) + length(len(content)) + content


def length(number):
    if number < 0x80:
        return bytes([number])
    octets = number.to_bytes((number.bit_length() + 7) // 8, "big")
    return bytes([0x80 | len(octets)]) + octets


def integer(number):
    return element(0x02, number.to_bytes(number.bit_length() // 8 + 1, "big"))


def public_key(n, e):
    return element(0x30, integer(n) + integer(e))


def integers(der):
    """The integers of a SEQUENCE of nothing else; a good one is expected."""
    def split(der):
        size, at = der[1], 2
        if size >= 0x80:
            at += size & 0x7F
            size = int.from_bytes(der[2:at], "big")
        return der[at:at + size], der[at + size:]

    rest, found = split(der)[0], []
    while rest:
        content, rest = split(rest)
        found.append(int.from_bytes(content, "big"))
    return found


class Key:
    def __init__(self, path):
        text = path.read_text().splitlines()
        _, self.n, self.e, self.d, self.p, self.q, *_ = integers(base64.b64decode("".join(text[1:-1])))
        self.name = path.stem
        self.bits = self.n.bit_length()
        self.size = (self.bits + 7) // 8

    def with_exponent(self, e):
        """A key of the same modulus; its name and numbers are right for this exponent."""
        other = object.__new__(Key)
        other.__dict__.update(self.__dict__, e=e, d=pow(e, -1, math.lcm(self.p - 1, self.q - 1)))
        return other

    def data(self):
        return public_key(self.n, self.e)

    def sign(self, encoded):
        """The signature whose power is this encoded message."""
        assert len(encoded) == self.size
        message = int.from_bytes(encoded, "big")
        assert message < self.n
        # By the Chinese remainder theorem, four times as fast.
        of_p, of_q = pow(message, self.d % (self.p - 1), self.p), pow(message, self.d % (self.q - 1), self.q)
        power = of_q + self.q * ((of_p - of_q) * pow(self.q, -1, self.p) % self.p)
        return power.to_bytes(self.size, "big")


# ---- encoded messages

def padded(digest_info, size):
    return b"\0\1" + b"\xff" * (size - len(digest_info) - 3) + b"\0" + digest_info


def encoded(hashed, size):
    return padded(SHA_256 + hashed, size)


def pss(hashed, bits, salt):
    """EMSA-PSS with SHA-256 and MGF1, for a modulus of so many bits."""
    size = (bits - 1 + 7) // 8
    digest = hashlib.sha256(bytes(8) + hashed + salt).digest()
    block = bytes(size - len(salt) - len(digest) - 2) + b"\1" + salt
    mask = b"".join(hashlib.sha256(digest + number.to_bytes(4, "big")).digest() for number in range(size // 32 + 1))
    masked = bytearray(left ^ right for left, right in zip(block, mask))
    masked[0] &= 0xFF >> (8 * size - bits + 1)
    return (bytes(masked) + digest + b"\xbc").rjust((bits + 7) // 8, b"\0")


def changed(data, at, value):
    assert data[at] != value
    at %= len(data)
    return data[:at] + bytes([value]) + data[at + 1:]


def message_of(key, tries=1):
    """The hash of a message and its signature: of so many the first that is still as long with the modulus added to it."""
    for number in range(tries):
        hashed = hashlib.sha256(f"message {number} for {key.name}".encode()).digest()
        signature = key.sign(encoded(hashed, key.size))
        if int.from_bytes(signature, "big") + key.n < 1 << 8 * key.size:
            break
    return hashed, signature


def wrong_messages(key, hashed):
    """Encoded messages that are not EMSA-PKCS1-v1_5's, each with what is wrong."""
    good = encoded(hashed, key.size)
    info = SHA_256 + hashed
    separator = key.size - len(info) - 1
    oid = info[4:15]
    yield "no NULL", padded(element(0x30, element(0x30, oid) + info[17:]), key.size)
    yield "a NULL of one byte", padded(element(0x30, element(0x30, oid + b"\5\1\0") + info[17:]), key.size)
    yield "NULL twice", padded(element(0x30, element(0x30, oid + b"\5\0\5\0") + info[17:]), key.size)
    yield "length not shortest", padded(b"\x30\x81" + info[1:], key.size)
    yield "no DigestInfo", padded(hashed, key.size)
    yield "hash cut", padded(SHA_256 + hashed[:31], key.size)
    yield "hash of SHA-384", padded(bytes.fromhex("3041300d060960864801650304020205000430") + hashed + hashed[:16], key.size)
    yield "object identifier of SHA-384", padded(info[:14] + b"\2" + info[15:], key.size)
    yield "object identifier of SHA-1", padded(bytes.fromhex("3021300906052b0e03021a05000414") + hashed[:20], key.size)
    yield "one byte behind the hash", padded(info + b"\0", key.size)
    yield "bytes behind the hash, eight of padding", (padded(info, len(info) + 11) + bytes(key.size))[:key.size]
    yield "bytes behind the hash, no padding", (b"\0\1\0" + info + bytes(key.size))[:key.size]
    yield "padding one byte short", b"\0\1" + good[3:] + b"\0"
    yield "padding one byte long", b"\0\1\xff" + good[2:-1]
    yield "padding ends early", changed(good, separator - 1, 0)
    yield "padding without an end", changed(good, separator, 0xFF)
    yield "first padding byte FE", changed(good, 2, 0xFE)
    yield "middle padding byte 7F", changed(good, key.size // 3, 0x7F)
    yield "last padding byte FE", changed(good, separator - 1, 0xFE)
    yield "padding of zeros", changed(b"\0\1" + bytes(separator - 2) + good[separator:], 2, 0xFF)
    yield "block type 0", changed(good, 1, 0)
    yield "block type 2", changed(good, 1, 2)
    yield "begins with 01", changed(good, 0, 1)
    yield "first byte of the hash", changed(good, -32, good[-32] ^ 0x80)
    yield "last byte of the hash", changed(good, -1, good[-1] ^ 1)
    yield "PSS", pss(hashed, key.bits, hashlib.sha256(b"salt").digest())


def wrong_numbers(key, signature):
    """Signatures that are not the number they should be."""
    number = int.from_bytes(signature, "big")
    sized = lambda other: other.to_bytes(key.size, "big")
    yield "zero", sized(0)
    yield "one", sized(1)
    yield "modulus less one", sized(key.n - 1)
    yield "modulus", sized(key.n)
    yield "modulus and one", sized(key.n + 1)
    if number + key.n < 1 << 8 * key.size:
        yield "modulus and signature", sized(key.n + number)
    yield "negated", sized(key.n - number)
    yield "highest", b"\xff" * key.size
    yield "last byte first", signature[::-1]
    yield "zero before", b"\0" + signature
    yield "zero behind", signature + b"\0"
    yield "last byte cut", signature[:-1]
    yield "first byte cut", signature[1:]
    yield "empty", b""


# ---- keys that are not supported

def wrong_encodings(key):
    """Data that is no RSAPublicKey in strict DER."""
    n, e, data = key.n, key.e, key.data()
    modulus, exponent = integer(n), integer(e)
    body = modulus + exponent
    length_at = len(data) - len(body) - 1
    algorithm = bytes.fromhex("300d06092a864886f70d0101010500")
    yield "SubjectPublicKeyInfo", element(0x30, algorithm + element(0x03, b"\0" + data))
    yield "a byte behind the sequence", data + b"\0"
    yield "a byte behind the exponent", element(0x30, body + b"\0")
    yield "a third integer", element(0x30, body + integer(0))
    yield "no exponent", element(0x30, modulus)
    yield "exponent first", public_key(e, n)
    yield "no sequence", body
    yield "cut", data[:-1]
    yield "empty sequence", element(0x30, b"")
    yield "a set", b"\x31" + data[1:]
    yield "modulus is an octet string", element(0x30, b"\4" + body[1:])
    yield "exponent is an octet string", element(0x30, modulus + b"\4" + exponent[1:])
    yield "sequence of indefinite length", b"\x30\x80" + body + b"\0\0"
    yield "sequence length not shortest", bytes([0x30, data[1] + 1, 0]) + data[2:]
    yield "modulus length not shortest", element(0x30, bytes([2, modulus[1] + 1, 0]) + modulus[2:] + exponent)
    yield "exponent length not shortest", element(0x30, modulus + b"\2\x81" + exponent[1:])
    yield "sequence length one short", changed(data, length_at, data[length_at] - 1)
    yield "sequence length one long", changed(data, length_at, data[length_at] + 1)
    yield "modulus without its leading zero", element(0x30, element(2, n.to_bytes(key.size, "big")) + exponent)
    yield "modulus with a zero more", element(0x30, element(2, n.to_bytes(key.size + 2, "big")) + exponent)
    yield "exponent with a zero more", element(0x30, modulus + element(2, b"\0" + exponent[2:]))
    yield "modulus with no bytes", element(0x30, element(2, b"") + exponent)
    yield "exponent with no bytes", element(0x30, modulus + element(2, b""))
    yield "exponent negative", element(0x30, modulus + element(2, b"\xff"))


def wrong_key_numbers(key):
    """A modulus or an exponent that is not supported."""
    n, e, bits = key.n, key.e, key.bits
    yield "exponent 0", public_key(n, 0)
    yield "exponent 2", public_key(n, 2)
    yield "exponent one less", public_key(n, e - 1)
    yield "exponent 2^32 - 2", public_key(n, 2**32 - 2)
    yield "exponent 2^32", public_key(n, 2**32)
    yield "exponent 2^32 and its own", public_key(n, 2**32 + e)
    yield "exponent 2^64 and its own", public_key(n, 2**64 + e)
    yield "modulus 0", public_key(0, e)
    yield "modulus even", public_key(n - 1, e)
    yield "modulus of one bit less", public_key(n - (1 << bits - 1) | 1 << bits - 2, e)
    yield "modulus of one bit more", public_key(n | 1 << bits, e)
    yield "modulus of eight bits less", public_key(n >> 8 | 1, e)


def unsupported(key, hashed):
    """Name, data, bits and a signature that is right for the data's numbers, where there is one."""
    message = encoded(hashed, key.size)
    signature = key.sign(message)
    for name, data in [*wrong_encodings(key), *wrong_key_numbers(key)]:
        yield name, data, key.bits, signature
    for exponent in (1, 2**32 + 15):
        other = key.with_exponent(exponent)
        yield f"exponent {exponent}, signed", other.data(), key.bits, other.sign(message)
    yield "eight bits less stored", key.data(), key.bits - 8, signature
    yield "eight bits more stored", key.data(), key.bits + 8, signature


# ---- the files

def lines(title, values):
    yield f"[{title}]"
    for name, value in values:
        yield f"{name} = {value.hex() if isinstance(value, bytes) else value}".rstrip()
    yield ""


def signatures(keys):
    for key in keys:
        hashed, signature = message_of(key)
        yield from lines(key.name, [("bits", key.bits), ("data", key.data()), ("hash", hashed), ("signature", signature)])


def structures(keys):
    for key in keys:
        hashed, signature = message_of(key, 20)
        assert pow(int.from_bytes(signature, "big"), key.e, key.n).to_bytes(key.size, "big") == encoded(hashed, key.size)
        wrong = [(name, key.sign(other)) for name, other in wrong_messages(key, hashed)]
        known = [("bits", key.bits), ("data", key.data()), ("hash", hashed), ("signature", signature)]
        yield from lines(key.name, known + wrong + list(wrong_numbers(key, signature)))


def refused_keys(keys):
    for key in keys:
        hashed, _ = message_of(key)
        for name, data, bits, signature in unsupported(key, hashed):
            assert 1 <= len(data) <= 600, name
            if 1024 <= bits <= 4096:
                yield from lines(key.name, [("name", name), ("bits", bits), ("data", data), ("hash", hashed), ("signature", signature)])


def main():
    keys = sorted((Key(path) for path in (HERE / "keys").glob("*.pem")), key=lambda key: (key.bits, key.e))
    whole = [key for key in keys if key.name in ("1024-65537", "1032-65537", "2048-3", "3072-17", "4096-4294967295")]
    few = [key for key in keys if key.name in ("1024-3", "2048-65537")]
    files = {"signatures.txt": signatures(keys), "structures.txt": structures(whole), "keys.txt": refused_keys(few)}
    same = True
    for name, content in files.items():
        text = "\n".join(content) + "\n"
        path = HERE / name
        if "--check" in sys.argv[1:]:
            if not path.exists() or path.read_text() != text:
                print(f"{name} is not what make.py writes")
                same = False
        else:
            path.write_text(text)
    sys.exit(0 if same else 1)


if __name__ == "__main__":
    main()
