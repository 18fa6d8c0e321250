#!/usr/bin/env python3
"""Makes the sample roster, list, streams and journal, and counts what their bills must say.

    samples/make.py            writes servers.roster, servers.list, the three streams and day.journal beside this file
    samples/make.py --check    writes nothing; fails if one of them, or a .bill file, differs

Each request below stands with the status that document 01, as document 02 amends it, gives it, and with
the key that it is about, told by a reader and not by a program. The expected bill is counted from these
alone, so it is independent of every program that prints a bill. The .bill files themselves come from the second
program, see README.md.
"""

import argparse
import hashlib
import struct
import sys
import zlib
from collections import Counter
from dataclasses import dataclass
from pathlib import Path

HERE = Path(__file__).parent

# ---- document 01, "Operations and their fields"; document 02, "Checking signatures", "Keys we ship" and "Surviving a power cut"

CORE, KEYSTORE = 0, 1
PING, LIST_PROVIDERS, LIST_OPCODES = 1, 8, 9
DESTROY, VERIFY, IMPORT, EXPORT = 3, 5, 6, 7
OPERATIONS = {
    PING: "Ping",
    LIST_PROVIDERS: "ListProviders",
    LIST_OPCODES: "ListOpcodes",
    DESTROY: "Destroy",
    VERIFY: "Verify",
    IMPORT: "Import",
    EXPORT: "Export",
}
# The tags of the journal's records.
TAGS = {IMPORT: 2, DESTROY: 3}
STATUSES = [0, 1, 2, 3, 4, 6, 7, 9, 11, 12, 17, 19, 20, 1133, 1134, 1135, 1139, 1140, 1142, 1149]
SLOTS = 8

# The roster, in file order: the line's number is the place here.
APPLICATIONS = ["recon-a", "recon-b", "viewer", "archive"]


# ---- message bodies: the Protocol Buffers encoding, zero values left out


def varint(value):
    out = bytearray()
    while value >= 0x80:
        out.append(value & 0x7F | 0x80)
        value >>= 7
    out.append(value)
    return bytes(out)


def number_field(number, value):
    return varint(number << 3 | 0) + varint(value) if value else b""


def bytes_field(number, value):
    return varint(number << 3 | 2) + varint(len(value)) + value if value else b""


def groups(depth, number=15):
    """So many groups inside each other."""
    return varint(number << 3 | 3) * depth + varint(number << 3 | 4) * depth


def provider_body(provider):
    return number_field(1, provider)


def name_body(name):
    return bytes_field(1, name.encode())


def import_body(name, data, bits, export=True, verify=True):
    return (
        name_body(name)
        + bytes_field(2, data)
        + number_field(3, bits)
        + number_field(4, int(export))
        + number_field(5, int(verify))
    )


def verify_body(name, digest, signature):
    return name_body(name) + bytes_field(2, digest) + bytes_field(3, signature)


# ---- keys: RFC 8017, from labels, so that each run makes the same

EXPONENT = 65_537
# DigestInfo of SHA-256, up to the hash.
DIGEST_INFO = bytes.fromhex("3031300d060960864801650304020105000420")


def number_from(label, bits):
    return int.from_bytes(hashlib.shake_256(label.encode()).digest(bits // 8), "big")


def der(tag, content):
    """A value with its tag and its length in the shortest form."""
    size = len(content)
    if size < 0x80:
        length = bytes([size])
    elif size < 0x100:
        length = bytes([0x81, size])
    else:
        length = b"\x82" + struct.pack(">H", size)
    return bytes([tag]) + length + content


def der_integer(number):
    # With a zero in front where the top bit is set.
    return der(0x02, number.to_bytes(number.bit_length() // 8 + 1, "big"))


def rsa_public_key(modulus):
    """The DER of an RSAPublicKey."""
    return der(0x30, der_integer(modulus) + der_integer(EXPONENT))


def public_key(label, bits):
    """A DER RSAPublicKey whose modulus is any odd number: nobody can sign with it."""
    return rsa_public_key(number_from(label, bits) | 1 << (bits - 1) | 1)


def is_prime(number):
    """Miller and Rabin's test by the first primes, which are tried as divisors before."""
    bases = [2, 3, 5, 7, 11, 13, 17, 19, 23, 29, 31, 37]
    if any(number % base == 0 for base in bases):
        return number in bases
    odd, twos = number - 1, 0
    while odd % 2 == 0:
        odd, twos = odd // 2, twos + 1

    def passes(base):
        power = pow(base, odd, number)
        powers = [pow(power, 2**square, number) for square in range(twos)]
        return power == 1 or number - 1 in powers

    return all(map(passes, bases))


def prime_from(label, bits):
    """The first prime that will do for RSA, of exactly so many bits: two give a modulus of twice as many."""
    number = number_from(label, bits) | 3 << (bits - 2) | 1
    while number % EXPONENT == 1 or not is_prime(number):
        number += 2
    return number


class SigningKey:
    """A key that can sign, for samples and tests alone: its label tells all of it."""

    def __init__(self, label, bits):
        p, q = (prime_from(f"{label} {name}", bits // 2) for name in "pq")
        self.bits = bits
        self.modulus = p * q
        self._private = pow(EXPONENT, -1, (p - 1) * (q - 1))

    def data(self):
        return rsa_public_key(self.modulus)

    def sign(self, digest):
        """RSASSA-PKCS1-v1_5 with SHA-256, of a hash."""
        size = self.bits // 8
        info = b"\x00" + DIGEST_INFO + digest
        encoded = b"\x00\x01" + b"\xff" * (size - 2 - len(info)) + info
        return pow(int.from_bytes(encoded, "big"), self._private, self.modulus).to_bytes(size, "big")


def digest_of(message):
    return hashlib.sha256(message).digest()


# ---- requests: document 01, "Bytes on the wire"


@dataclass(frozen=True)
class Request:
    opcode: int
    provider: int = CORE
    body: bytes = b""
    auth_type: int = 0
    auth: bytes = b""
    session: int = 0
    major: int = 1
    minor: int = 0
    content_type: int = 1
    accept_type: int = 1
    # Header bytes past the 22 known ones: H counts them, and a reader ignores them.
    beyond: bytes = b""

    def encode(self):
        header = struct.pack(
            "<IHBBBQBBBIHH",
            0x5EC0A710,
            22 + len(self.beyond),
            self.major,
            self.minor,
            self.provider,
            self.session,
            self.content_type,
            self.accept_type,
            self.auth_type,
            len(self.body),
            len(self.auth),
            self.opcode,
        )
        return header + self.beyond + self.body + self.auth


@dataclass(frozen=True)
class Sent:
    """A request, the status that document 01 gives it, and the name of the key that it is about; of an import or destroy
    also what its record says of the key."""

    request: Request
    status: int
    key: str = ""
    recorded: bytes = b""


def core(opcode, status=0, **fields):
    """A request to the core provider, with auth type 0 where `fields` say nothing else."""
    return Sent(Request(opcode, **fields), status)


def keystore(application, opcode, key, body, status=0, recorded=b"", **fields):
    """A request about a key that an application sends to the keystore under its name."""
    named = {"provider": KEYSTORE, "auth_type": 1, "auth": application.encode()}
    return Sent(Request(opcode, body=body, **{**named, **fields}), status, key, recorded)


def imported(name, data, bits, export=True, verify=True):
    """What the record of an import says of the key."""
    return struct.pack("<HBBB", bits, export, verify, len(name)) + name.encode() + data


def import_data(application, name, data, bits, status=0, **flags):
    body = import_body(name, data, bits, **flags)
    return keystore(application, IMPORT, name, body, status, imported(name, data, bits, **flags))


def import_key(application, name, bits, status=0, **flags):
    return import_data(application, name, public_key(f"{application} {name}", bits), bits, status, **flags)


def export_key(application, name, status=0, **fields):
    return keystore(application, EXPORT, name, name_body(name), status, **fields)


def destroy_key(application, name, status=0, **fields):
    return keystore(application, DESTROY, name, name_body(name), status, name.encode(), **fields)


def verify(application, name, digest, signature, status=0, **fields):
    return keystore(application, VERIFY, name, verify_body(name, digest, signature), status, **fields)


# ---- a day at the reconstruction servers


def greetings():
    """Every operation of the core provider, with and without a name."""
    viewer = {"auth_type": 1, "auth": b"viewer"}
    return [
        core(PING),
        core(LIST_PROVIDERS, session=1),
        core(LIST_OPCODES, body=provider_body(CORE), session=2),
        core(LIST_OPCODES, body=provider_body(KEYSTORE), session=2**64 - 1),
        core(PING, **viewer),
        # The header size H says where the body starts: 30 and 64 instead of 22.
        core(LIST_OPCODES, body=provider_body(KEYSTORE), beyond=b"\xaa" * 8, **viewer),
        core(PING, beyond=b"\xff" * 42),
    ]


def keys_of_the_servers():
    """Two servers hold a key of the same name, and each sees its own only."""
    # Fields in any order, longer varints than needed, and of a repeated field the last counts.
    data = public_key("recon-b mr-0001", 2048)
    shuffled = (
        b"\x20\x80\x00"
        + number_field(3, 1)
        + bytes_field(2, data)
        + number_field(4, 1)
        + name_body("mr-0000")
        + number_field(3, 2048)
        + name_body("mr-0001")
    )
    return [
        import_key("recon-a", "ct-0001", 2048),
        import_key("recon-a", "ct-0002", 3072, verify=False),
        import_key("recon-b", "ct-0001", 4096),
        import_key("recon-b", "sealed", 2048, export=False),
        keystore("recon-b", IMPORT, "mr-0001", shuffled, recorded=imported("mr-0001", data, 2048, verify=False)),
        export_key("recon-a", "ct-0001", session=3),
        export_key("recon-b", "ct-0001", session=4),
        export_key("recon-b", "mr-0001"),
        export_key("recon-b", "sealed", 1133),
        export_key("viewer", "ct-0001", 1140),
        destroy_key("viewer", "ct-0001", 1140),
        export_key("recon-a", "ct-0009", 1140),
        import_key("recon-a", "ct-0001", 2048, 1139),
        destroy_key("recon-a", "ct-0002"),
        export_key("recon-a", "ct-0002", 1140),
    ]


def unlisted_fields():
    """Skipped: a field that is not listed, one with another wire type than its own, and groups 16 deep."""
    export = number_field(1, 5) + name_body("ct-0001") + bytes_field(9, b"newer") + groups(16)
    return [
        core(PING, body=number_field(1, 7) + groups(16)),
        keystore("recon-a", EXPORT, "ct-0001", export),
    ]


def signatures():
    """A series is checked with the viewer's key; then what is no signature of it, in the order of judgement."""
    key = SigningKey("viewer series", 2048)
    series, other = digest_of(b"series 1"), digest_of(b"series 2")
    signature = key.sign(series)
    return [
        import_data("viewer", "series", key.data(), key.bits, export=False),
        verify("viewer", "series", series, signature, session=9),
        verify("viewer", "series", other, signature, 1149),
        # Of another length, and not below the modulus.
        verify("viewer", "series", series, b"\x00" + signature, 1149),
        verify("viewer", "series", series, b"\xff" * 256, 1149),
        verify("viewer", "", series, signature, 1135),
        verify("recon-a", "series", series, signature, 1140),
        # Imported without leave to verify; that the hash is short is not judged any more.
        verify("recon-b", "mr-0001", series[1:], signature, 1133),
        verify("viewer", "series", series[1:], signature, 1135),
        # A key of fewer bits than it was said to have, and data that is no key at all.
        import_data("viewer", "short", key.data(), 3072),
        import_data("viewer", "note", b"no key", 2048),
        verify("viewer", "short", series, signature, 1134),
        verify("viewer", "note", series, signature, 1134),
    ]


def full_archive():
    """All slots of an application in use, one destroyed, and the same import again."""
    names = [f"vault-{number}" for number in range(SLOTS)]
    return [
        *[import_key("archive", name, 4096) for name in names],
        import_key("archive", "vault-new", 2048, 1142),
        import_key("archive", names[-1], 2048, 1139),
        destroy_key("archive", names[1]),
        import_key("archive", "vault-new", 2048),
        export_key("archive", "vault-new"),
        export_key("archive", names[1], 1140),
    ]


def bad_headers():
    """Refused by the header alone, in document 01's order."""
    return [
        core(PING, 4, major=2),
        core(PING, 4, minor=1),
        core(0, 4, major=2),
        core(PING, 2, content_type=3),
        core(PING, 3, accept_type=3),
        core(0, 9),
        core(2, 9, provider=KEYSTORE),
        core(PING, 6, provider=2),
        core(PING, 1, provider=KEYSTORE),
        import_at_core(1),
    ]


def import_at_core(status):
    body = import_body("ct-0003", public_key("recon-a ct-0003", 2048), 2048)
    return keystore("recon-a", IMPORT, "ct-0003", body, status, provider=CORE)


def bad_authentication():
    return [
        core(PING, 12, auth_type=2, auth=b"a token"),
        core(PING, 11, auth=b"recon-a"),
        core(PING, 11, auth_type=1, auth=b"recon-c"),
        core(PING, 11, auth_type=1),
        export_key("recon-", "ct-0001", 11),
        export_key("recon-a", "ct-0001", 19, auth_type=0, auth=b""),
    ]


def bad_bodies():
    """Unreadable bodies, then readable ones that the operation refuses."""
    data = public_key("recon-a ct-0003", 2048)
    return [
        # A field of five bytes with two behind its length: cut.
        keystore("recon-a", EXPORT, "", b"\x0a\x05ct", 7),
        # A varint whose tenth byte is above 1.
        core(LIST_OPCODES, 7, body=b"\x08" + b"\xff" * 9 + b"\x02"),
        # Wire type 7.
        core(PING, 7, body=b"\x0f"),
        # Groups 17 deep.
        keystore("recon-a", EXPORT, "ct-0001", name_body("ct-0001") + groups(17), 7),
        core(LIST_OPCODES, 6, body=provider_body(2)),
        destroy_key("recon-a", "", 1135),
        destroy_key("recon-a", "ct 0001", 1135),
        export_key("recon-a", "x" * 33, 1135),
        import_data("recon-a", "ct-0003", b"", 2048, 1135),
        import_data("recon-a", "ct-0003", b"\x00" * 601, 2048, 1135),
        import_data("recon-a", "", data, 2048, 1135),
    ]


def oversized():
    """Skipped whole and answered at their last byte, so that the Ping behind them is read."""
    return [
        core(PING, 20, body=b"\x00" * 4097, session=5),
        core(PING, 20, body=b"\x00" * 4097, auth=b"\x00" * 257, session=6),
        core(PING, 11, auth=b"\x00" * 257, session=7),
        core(PING, session=8),
    ]


# ---- keys that every site is handed


def shipped_keys():
    """The list: name and data of each key. The last is an RSA key of bits that Import would not take."""
    return {
        "release-2026": public_key("release-2026", 3072),
        "release-2027": SigningKey("release 2027", 2048).data(),
        "leaflet": b"no key",
        "odd": public_key("odd", 1028),
    }


def listed_keys():
    """Every application has them beside its own; none can take a listed name or drop a listed key."""
    key = SigningKey("release 2027", 2048)
    release, other = digest_of(b"release 2027"), digest_of(b"release 2028")
    signature = key.sign(release)
    return [
        export_key("recon-a", "release-2026"),
        export_key("viewer", "release-2027", session=1),
        export_key("viewer", "leaflet"),
        verify("archive", "release-2027", release, signature),
        verify("archive", "release-2027", other, signature, 1149),
        verify("archive", "release-2027", release[1:], signature, 1135),
        verify("archive", "leaflet", release, signature, 1134),
        verify("archive", "odd", release, b"\x01" * 129, 1134),
        import_key("recon-a", "release-2027", 2048, 1139),
        destroy_key("recon-a", "release-2027", 1133),
        export_key("recon-a", "release-2028", 1140),
        destroy_key("recon-a", "release-2028", 1140),
        # A name that nobody ships is the application's own as ever.
        import_key("recon-a", "release-2028", 2048),
        export_key("recon-a", "release-2028"),
        destroy_key("recon-a", "release-2028"),
        # The list is for those who are named.
        export_key("viewer", "release-2027", 19, auth_type=0, auth=b""),
    ]


# ---- streams


def change(slots, opcode, key):
    """What a served request does to the slots of its application; a listed key is in none."""
    if opcode == IMPORT:
        slots[slots.index(None)] = (key, 0)
        return
    for slot, held in enumerate(slots):
        if held and held[0] == key:
            slots[slot] = None if opcode == DESTROY else (key, held[1] + 1)


@dataclass(frozen=True)
class Stream:
    sent: list
    # Six bytes that are no start of a request: status 17. What follows is dropped.
    bad_start: bytes = b""
    dropped: bytes = b""
    # The beginning of a request whose rest has not come.
    held: bytes = b""

    def encode(self):
        requests = b"".join(sent.request.encode() for sent in self.sent)
        return requests + self.bad_start + self.dropped + self.held

    def refusals(self):
        refused = Counter(sent.status for sent in self.sent if sent.status)
        refused[17] += bool(self.bad_start)
        return +refused

    def served(self):
        return [sent.request for sent in self.sent if sent.status == 0]

    def slots(self):
        """Of each application, what its slots hold in the end: a key's name and uses, or None."""
        slots = {name: [None] * SLOTS for name in APPLICATIONS}
        for sent in self.sent:
            if sent.status == 0 and sent.key:
                change(slots[sent.request.auth.decode()], sent.request.opcode, sent.key)
        return slots

    def key_lines(self):
        """Document 02, "Use per key"."""
        return [
            f"key {line} {slot} {held[1]}"
            for line, slots in enumerate(self.slots().values())
            for slot, held in enumerate(slots)
            if held
        ]

    def journal(self):
        """Document 02, "Surviving a power cut": the records of what was served."""
        records = [
            record(TAGS[sent.request.opcode], bytes([APPLICATIONS.index(sent.request.auth.decode())]) + sent.recorded)
            for sent in self.sent
            if sent.status == 0 and sent.request.opcode in TAGS
        ]
        return b"".join(content + struct.pack("<I", zlib.crc32(content)) for content in records)

    def restored_bill(self):
        """That of a service which has only read the journal: its keys, not used yet."""
        return [
            "taken 0",
            *[f"line {n} {name} 0" for n, name in enumerate(APPLICATIONS)],
            *[line.rsplit(" ", 1)[0] + " 0" for line in self.key_lines()],
            *["open 0", "dropped 0", "held 0"],
        ]

    def bill(self):
        """Document 01, "The bill"."""
        callers = Counter(request.auth.decode() for request in self.served())
        return [
            f"taken {len(self.encode())}",
            *[f"line {n} {name} {callers[name]}" for n, name in enumerate(APPLICATIONS)],
            *self.key_lines(),
            f"open {callers['']}",
            *[f"refused {status} {count}" for status, count in sorted(self.refusals().items())],
            f"dropped {len(self.dropped)}",
            f"held {len(self.held)}",
        ]


def day():
    sent = [
        *greetings(),
        *keys_of_the_servers(),
        *unlisted_fields(),
        *signatures(),
        *full_archive(),
        *bad_headers(),
        *bad_authentication(),
        *bad_bodies(),
        *oversized(),
    ]
    unfinished = export_key("viewer", "ct-0001").request.encode()
    return Stream(sent, held=unfinished[:33])


def closed():
    """Somebody speaks HTTP on the connection; the Ping behind it is dropped with the rest."""
    sent = [
        core(PING),
        import_key("recon-a", "ct-0001", 2048),
        export_key("recon-a", "ct-0001"),
        destroy_key("recon-a", "ct-0001"),
    ]
    http = b"GET /keys/ct-0001 HTTP/1.1\r\nHost: recon-a\r\n\r\n"
    return Stream(sent, bad_start=http[:6], dropped=http[6:] + Request(PING).encode())


def shipped():
    """What is asked of the keys that every site is handed."""
    return Stream([core(PING), *listed_keys()])


def record(tag, value):
    """Of a roster or a list, and of a journal but for its CRC: tag, length, value."""
    return bytes([tag]) + struct.pack("<H", len(value)) + value


def roster():
    return b"".join(record(1, name.encode()) for name in APPLICATIONS)


def list_file():
    return b"".join(record(1, name.encode()) + record(2, data) for name, data in shipped_keys().items())


# ---- the command


def missing(day_stream, closed_stream):
    """What the two streams together should exercise and don't."""
    statuses = {sent.status for sent in day_stream.sent} | set(closed_stream.refusals())
    operations = {request.opcode for request in day_stream.served()}
    lacking = [f"status {status}" for status in STATUSES if status not in statuses]
    lacking += [name for opcode, name in OPERATIONS.items() if opcode not in operations]
    uses = {held[1] for slots in day_stream.slots().values() for held in slots if held}
    return lacking + [name for name, count in [("unused key", 0), ("key used twice", 2)] if count not in uses]


def show(name, stream):
    print(f"{name}: {len(stream.sent)} requests, {len(stream.served())} served")
    for opcode, count in sorted(Counter(request.opcode for request in stream.served()).items()):
        print(f"  {OPERATIONS[opcode]} served {count}")
    for line in stream.bill():
        print(f"  {line}")


def differing(files):
    """The names of the files whose bytes are not these."""
    paths = {HERE / name: content for name, content in files.items()}
    return [
        path.name
        for path, content in paths.items()
        if not path.is_file() or path.read_bytes() != content
    ]


def is_check_only():
    """What the command line asks for; a word that it does not know ends the program with status 2."""
    parser = argparse.ArgumentParser(description=__doc__.splitlines()[0], allow_abbrev=False)
    only = "write nothing; fail if one of the files, or a .bill file, differs"
    parser.add_argument("--check", action="store_true", help=only)
    return parser.parse_args().check


def main():
    check_only = is_check_only()
    streams = {"day": day(), "closed": closed(), "shipped": shipped()}
    lacking = missing(streams["day"], streams["closed"])
    files = {"servers.roster": roster(), "servers.list": list_file()}
    files |= {f"{name}.stream": stream.encode() for name, stream in streams.items()}
    files["day.journal"] = streams["day"].journal()
    lines = {f"{name}.bill": stream.bill() for name, stream in streams.items()}
    lines["restored.bill"] = streams["day"].restored_bill()
    bills = {name: "".join(line + "\n" for line in text).encode() for name, text in lines.items()}
    for name, stream in streams.items():
        show(name, stream)
    if not check_only:
        for name, content in files.items():
            (HERE / name).write_bytes(content)
    wrong = lacking + differing(files | bills)
    for name in wrong:
        print(f"differs or lacks: {name}")
    print("samples: " + ("not as expected" if wrong else "as expected"))
    return 1 if wrong else 0


if __name__ == "__main__":
    sys.exit(main())
