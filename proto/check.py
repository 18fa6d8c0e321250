"""Google's Protocol Buffers library against the compiled, proved readers and writers.

    check.py LIBPROBE LIBABI LIBCLIENT_ABI

The arguments are shared objects; razidkot_pb2, made by protoc, is importable.

What Google's library serialises is read here as the same message; what is written here parses there
as the same message and is the same bytes; and whole requests are answered by bodies that parse, or
by the status that their fields ask for. The
client's requests have such bodies, and it reads responses that have them. Bodies with fields that are
not listed, groups and damage are read alike, but for the classes that `unlisted.py` names. `proto/test`
runs it. Messages are generated from a fixed seed.
"""

import random
import struct
import sys
import warnings
from collections import Counter
from dataclasses import dataclass
from functools import lru_cache
from pathlib import Path
from typing import Any

import google.protobuf
import razidkot_pb2 as messages
import unlisted
from google.protobuf.descriptor import FieldDescriptor
from google.protobuf.empty_pb2 import Empty
from google.protobuf.internal import api_implementation
from google.protobuf.message import DecodeError
from proved import DATA, NOTHING, OFFSET, OPCODES, PROVIDERS, VERSION
from proved import RESPONSE, RESPONSE_HEADER, UNREADABLE_BODY, Bodies, Client, Service

SEED = 20
RUNS = 2_500

# The schemas of `crates/probe`.
REQUESTS = {
    messages.ListOpcodesRequest: 1,
    messages.PsaImportKeyRequest: 2,
    messages.PsaDestroyKeyRequest: 3,
    messages.PsaExportPublicKeyRequest: 3,
}
# Of a request with no input; its message is Empty.
NO_FIELDS = 0
RESPONSES = [
    messages.PingResponse,
    messages.ListProvidersResponse,
    messages.ListOpcodesResponse,
    messages.PsaExportPublicKeyResponse,
    messages.DeserializingBodyFailedResponse,
]
# `crates/probe` has no schema for its fields: it is read by the service alone.
VERIFY_REQUEST = messages.PsaAsymmetricVerifyRequest

CORE, KEYSTORE = 0, 1
PING, DESTROY, VERIFY, IMPORT, EXPORT, LIST_PROVIDERS, LIST_OPCODES = 1, 3, 5, 6, 7, 8, 9
SUCCESS, PROVIDER_DOES_NOT_EXIST, DESERIALIZING_BODY_FAILED = 0, 6, 7
NOT_PERMITTED, NOT_SUPPORTED, INVALID_ARGUMENT, INVALID_SIGNATURE = 1133, 1134, 1135, 1149
APPLICATION = b"recon-a"
MAGIC = 0x5EC0A710
CONTENT_MOST = 998


@dataclass(frozen=True)
class Operation:
    """One of the client's, with the fields that it takes and gives, in the order of its arguments."""

    name: str
    opcode: int
    provider: int
    output: int
    # None where the body is empty.
    request: Any = None
    takes: tuple = ()
    response: Any = None
    gives: tuple = ()


OPERATIONS = [
    Operation(
        *("ping", PING, CORE, VERSION),
        response=messages.PingResponse,
        gives=("major", "minor"),
    ),
    Operation(
        *("list_providers", LIST_PROVIDERS, CORE, PROVIDERS),
        response=messages.ListProvidersResponse,
        gives=("providers",),
    ),
    Operation(
        *("list_opcodes", LIST_OPCODES, CORE, OPCODES),
        request=messages.ListOpcodesRequest,
        takes=("provider",),
        response=messages.ListOpcodesResponse,
        gives=("opcodes",),
    ),
    Operation(
        *("import", IMPORT, KEYSTORE, NOTHING),
        request=messages.PsaImportKeyRequest,
        takes=("name", "data", "bits", "export_allowed", "verify_allowed"),
    ),
    Operation(
        *("destroy", DESTROY, KEYSTORE, NOTHING),
        request=messages.PsaDestroyKeyRequest,
        takes=("name",),
    ),
    Operation(
        *("export", EXPORT, KEYSTORE, DATA),
        request=messages.PsaExportPublicKeyRequest,
        takes=("name",),
        response=messages.PsaExportPublicKeyResponse,
        gives=("data",),
    ),
    Operation(
        *("verify", VERIFY, KEYSTORE, NOTHING),
        request=VERIFY_REQUEST,
        takes=("name", "hash", "signature"),
    ),
]


# ---- generated messages


def some_number(chance):
    """Below 2^32, every length of varint about as often as the others."""
    return chance.getrandbits(32) >> chance.randrange(33)


def some_bytes(chance):
    length = chance.choice([0, 1, 2, 32, 33, 127, 128, 600, 601, chance.randrange(1_000)])
    return chance.randbytes(length)


def some_value(chance, field):
    if field.label == FieldDescriptor.LABEL_REPEATED:
        return [some_number(chance) for _ in range(chance.randrange(20))]
    if field.type == FieldDescriptor.TYPE_BYTES:
        return some_bytes(chance)
    if field.type == FieldDescriptor.TYPE_BOOL:
        return chance.random() < 0.5
    return some_number(chance)


def some_message(chance, kind):
    return kind(**{field.name: some_value(chance, field) for field in kind.DESCRIPTOR.fields})


def values_of(message, names):
    values = [getattr(message, name) for name in names]
    return [value if isinstance(value, (bytes, int)) else list(value) for value in values]


# ---- the same message in other forms than Google's library writes


def longer_varint(chance, value, most):
    """A varint of at most `most` bytes, often longer than needed."""
    groups = [value & 0x7F]
    while value := value >> 7:
        groups.append(value & 0x7F)
    groups += [0] * chance.randrange(most - len(groups) + 1)
    return bytes(group | 0x80 for group in groups[:-1]) + bytes(groups[-1:])


# Google's library reads tags and lengths of up to five bytes, numbers of up to ten. Its variant in
# Python alone takes a tag that is longer than needed for that of an unknown field.
TAG_MOST = 1 if api_implementation.Type() == "python" else 5
LENGTH_MOST = 5
NUMBER_MOST = 10


def some_field(chance, field):
    if field.type == FieldDescriptor.TYPE_BYTES:
        value = some_bytes(chance)
        tag = longer_varint(chance, field.number << 3 | 2, TAG_MOST)
        return tag + longer_varint(chance, len(value), LENGTH_MOST) + value
    number = chance.getrandbits(64) >> chance.randrange(65)
    tag = longer_varint(chance, field.number << 3, TAG_MOST)
    return tag + longer_varint(chance, number, NUMBER_MOST)


def some_body(chance, kind):
    """Listed fields in any order, left out or repeated; every other body is cut somewhere."""
    fields = chance.choices(kind.DESCRIPTOR.fields, k=chance.randrange(8))
    body = b"".join(some_field(chance, field) for field in fields)
    return body if chance.random() < 0.5 else body[: chance.randrange(len(body) + 1)]


def some_list_field(chance, field):
    """A packed list."""
    numbers = (chance.getrandbits(64) >> chance.randrange(65) for _ in range(chance.randrange(20)))
    packed = b"".join(longer_varint(chance, number, NUMBER_MOST) for number in numbers)
    tag = longer_varint(chance, field.number << 3 | 2, TAG_MOST)
    return tag + longer_varint(chance, len(packed), LENGTH_MOST) + packed


def some_list_body(chance, kind):
    """One packed list or none; every other body is cut somewhere."""
    (field,) = kind.DESCRIPTOR.fields
    body = some_list_field(chance, field)
    return body if chance.random() < 0.5 else body[: chance.randrange(len(body) + 1)]


# ---- bodies read and written here


def read_here(bodies, kind, body):
    """The message in the body, or None."""
    values = bodies.read(REQUESTS.get(kind, NO_FIELDS), body)
    if values is None:
        return None
    message = kind()
    for field in kind.DESCRIPTOR.fields:
        content, number = values[field.number - 1]
        is_bytes = field.type == FieldDescriptor.TYPE_BYTES
        is_bool = field.type == FieldDescriptor.TYPE_BOOL
        setattr(message, field.name, content if is_bytes else bool(number) if is_bool else number)
    return message


def write_field_here(bodies, field, value):
    if field.label == FieldDescriptor.LABEL_REPEATED:
        return bodies.bytes_field(field.number, b"".join(map(bodies.varint, value)))
    if field.type == FieldDescriptor.TYPE_BYTES:
        return bodies.bytes_field(field.number, value)
    return bodies.number_field(field.number, int(value))


def write_here(bodies, message):
    fields = sorted(message.DESCRIPTOR.fields, key=lambda field: field.number)
    return b"".join(
        write_field_here(bodies, field, getattr(message, field.name)) for field in fields
    )


def read_there(kind, body):
    """The message in the body, what it doesn't list left out, or None."""
    try:
        message = kind.FromString(body)
    except DecodeError:
        return None
    message.DiscardUnknownFields()
    return message


# ---- whole requests


def exchange(service, chance, opcode, provider, message=None):
    """The status and the body of the response; its header repeats what it should."""
    body = message.SerializeToString() if message else b""
    return exchange_body(service, chance, opcode, provider, body)


def exchange_body(service, chance, opcode, provider, body):
    """The same of a request with these bytes."""
    session = chance.getrandbits(64)
    lengths = (len(body), len(APPLICATION))
    header = (MAGIC, 22, 1, 0, provider, session, 1, 1, 1, *lengths, opcode)
    request = struct.pack("<IHBBBQBBBIHH", *header) + body + APPLICATION
    (*repeated, length, opcode_back, status), answer = service.ask(request)
    expect(repeated, [20, 1, 0, provider, session, 1])
    expect((length, opcode_back), (len(answer), opcode))
    return status, answer


def some_name(chance, most):
    return bytes(chance.randint(0x21, 0x7E) for _ in range(chance.randint(1, most)))


def some_key(chance):
    """A key that Import allows."""
    return messages.PsaImportKeyRequest(
        name=some_name(chance, 32),
        data=chance.randbytes(chance.randint(1, 600)),
        bits=chance.choice([2_048, 3_072, 4_096]),
        export_allowed=chance.random() < 0.8,
        verify_allowed=chance.random() < 0.5,
    )


# ---- the client's requests and responses


def some_input(chance, kind):
    """A request that the client writes, or None if its body is empty."""
    if kind is None:
        return None
    if kind is messages.ListOpcodesRequest:
        return some_message(chance, kind)
    key = some_key(chance)
    if kind is VERIFY_REQUEST:
        signature = chance.randbytes(chance.choice([0, 1, 127, 128, 256, 512, 4_025]))
        return kind(name=key.name, hash=chance.randbytes(32), signature=signature)
    return key if kind is messages.PsaImportKeyRequest else kind(name=key.name)


def some_chunks(chance, stream):
    """The stream, uncut or cut anywhere."""
    cuts = sorted(chance.randrange(len(stream) + 1) for _ in range(chance.randrange(4)))
    return [stream[start:end] for start, end in zip([0, *cuts], [*cuts, len(stream)])]


def read_by_client(client, chance, operation, body, status=SUCCESS):
    """The values of the output in a response with this body, or None if it is unreadable."""
    session = chance.getrandbits(64)
    repeated = (20, 1, 0, operation.provider, session, 1)
    header = (MAGIC, *repeated, len(body), operation.opcode, status)
    chunks = some_chunks(chance, struct.pack(RESPONSE_HEADER, *header) + body)
    code, read, output, values = client.read(operation.opcode, session, chunks)
    if code == UNREADABLE_BODY:
        return None
    expected = OFFSET if status == DESERIALIZING_BODY_FAILED else operation.output
    expect((code, read, output), (RESPONSE, status, expected))
    return values


def short_enough(generate, chance, kind):
    """A body that a response may have."""
    while True:
        body = generate(chance, kind)
        if len(body) <= CONTENT_MOST:
            return body


# ---- the checks: each is one run


class Compared:
    """How many messages, bodies and answers were compared; an unreadable body is none."""

    count = 0


def expect(found, expected):
    if found != expected:
        raise AssertionError(f"found {found!r}, expected {expected!r}")
    if found is not None:
        Compared.count += 1


def serialised_there_is_read_here(bodies, chance, kind):
    message = some_message(chance, kind)
    expect(read_here(bodies, kind, message.SerializeToString()), message)


def any_form_is_read_alike(bodies, chance, kind):
    body = some_body(chance, kind)
    expect(read_here(bodies, kind, body), read_there(kind, body))


def written_here_is_read_there(bodies, chance, kind):
    message = some_message(chance, kind)
    body = write_here(bodies, message)
    expect(read_there(kind, body), message)
    expect(body, message.SerializeToString())


def core_answers_parse(service, chance):
    expected = messages.PingResponse(major=1, minor=0)
    expect(exchange(service, chance, PING, CORE), (SUCCESS, expected.SerializeToString()))
    status, body = exchange(service, chance, LIST_PROVIDERS, CORE)
    expect((status, list(messages.ListProvidersResponse.FromString(body).providers)), (0, [0, 1]))
    provider = chance.choice([CORE, KEYSTORE, some_number(chance)])
    asked = messages.ListOpcodesRequest(provider=provider)
    status, body = exchange(service, chance, LIST_OPCODES, CORE, asked)
    opcodes = list(messages.ListOpcodesResponse.FromString(body).opcodes)
    listed = {
        CORE: (SUCCESS, [PING, LIST_PROVIDERS, LIST_OPCODES]),
        KEYSTORE: (SUCCESS, [DESTROY, VERIFY, IMPORT, EXPORT]),
    }
    expect((status, opcodes), listed.get(provider, (PROVIDER_DOES_NOT_EXIST, [])))


def broken_body_has_its_offset(service, chance):
    """Behind a message that Google's library serialised stands a field that nobody reads."""
    kind = chance.choice([*REQUESTS, VERIFY_REQUEST])
    readable = some_message(chance, kind).SerializeToString()[:4_000]
    try:
        kind.FromString(readable)
    except DecodeError:
        # Cut in the middle of a field.
        return
    unreadable = chance.choice([b"\x0e", b"\x0f\x01", b"\x00\x01", b"\x0a\x05abc", b"\x80"])
    operation = chance.choice(OPERATIONS)
    body = readable + unreadable
    status, answer = exchange_body(service, chance, operation.opcode, operation.provider, body)
    expect(status, DESERIALIZING_BODY_FAILED)
    message = messages.DeserializingBodyFailedResponse.FromString(answer)
    expect((message.offset, message.SerializeToString()), (len(readable), answer))


def key_comes_back(service, chance):
    key = some_key(chance)
    expect(exchange(service, chance, IMPORT, KEYSTORE, key), (SUCCESS, b""))
    asked = messages.PsaExportPublicKeyRequest(name=key.name)
    status, body = exchange(service, chance, EXPORT, KEYSTORE, asked)
    expect(status, SUCCESS if key.export_allowed else NOT_PERMITTED)
    data = messages.PsaExportPublicKeyResponse.FromString(body).data
    expect(data, key.data if key.export_allowed else b"")
    gone = messages.PsaDestroyKeyRequest(name=key.name)
    expect(exchange(service, chance, DESTROY, KEYSTORE, gone), (SUCCESS, b""))


@lru_cache(maxsize=None)
def signing_key():
    """That of the samples' maker, which makes it from a label."""
    sys.path.append(str(Path(__file__).resolve().parent.parent / "samples"))
    from make import SigningKey

    return SigningKey("proto", 2_048)


@lru_cache(maxsize=None)
def signature_of(digest):
    """Made once for each digest, for a signature takes long in Python."""
    return signing_key().sign(digest)


def signature_is_checked(service, chance):
    """Each field is where the service reads it: what is wrong with one of them decides the status."""
    signer = signing_key()
    digest = bytes([chance.randrange(64)]) * 32
    key = some_key(chance)
    key.data, key.bits, key.verify_allowed = signer.data(), signer.bits, True
    asked = VERIFY_REQUEST(name=key.name, hash=digest, signature=signature_of(digest))
    expected = chance.choice(
        [SUCCESS, NOT_PERMITTED, INVALID_ARGUMENT, NOT_SUPPORTED, INVALID_SIGNATURE]
    )
    if expected == NOT_PERMITTED:
        key.verify_allowed = False
    elif expected == INVALID_ARGUMENT:
        asked.hash = digest[: chance.randrange(32)]
    elif expected == NOT_SUPPORTED:
        key.data = chance.randbytes(140)
    elif expected == INVALID_SIGNATURE:
        asked.signature = asked.signature[::-1]
    expect(exchange(service, chance, IMPORT, KEYSTORE, key), (SUCCESS, b""))
    expect(exchange(service, chance, VERIFY, KEYSTORE, asked), (expected, b""))
    gone = messages.PsaDestroyKeyRequest(name=key.name)
    expect(exchange(service, chance, DESTROY, KEYSTORE, gone), (SUCCESS, b""))


def written_by_the_client_is_read_there(client, chance, operation):
    message = some_input(chance, operation.request)
    application = chance.choice([None, some_name(chance, 64)])
    session = chance.getrandbits(64)
    values = values_of(message, operation.takes)
    header, body, auth = client.write(operation.name, session, application, *values)
    types = (1, 1, int(application is not None))
    lengths = (len(body), len(application or b""))
    sent = (operation.provider, session, *types, *lengths, operation.opcode)
    expect(header, (MAGIC, 22, 1, 0, *sent))
    expect(auth, application or b"")
    if message is None:
        expect(body, b"")
        return
    read = read_there(operation.request, body)
    expect(read, message)
    expect(read.SerializeToString(), body)


def serialised_there_is_read_by_the_client(client, chance, operation):
    if operation.response is None:
        expect(read_by_client(client, chance, operation, b""), [])
        return
    body = short_enough(
        lambda *given: some_message(*given).SerializeToString(), chance, operation.response
    )
    values = values_of(operation.response.FromString(body), operation.gives)
    expect(read_by_client(client, chance, operation, body), values)


def an_offset_is_read_by_the_client(client, chance, operation):
    kind = messages.DeserializingBodyFailedResponse
    body = short_enough(some_body, chance, kind)
    message = read_there(kind, body)
    expected = None if message is None else [message.offset]
    found = read_by_client(client, chance, operation, body, DESERIALIZING_BODY_FAILED)
    expect(found, expected)


def any_form_is_read_alike_by_the_client(client, chance, operation):
    kind = operation.response
    is_list = operation.output in (PROVIDERS, OPCODES)
    body = short_enough(some_list_body if is_list else some_body, chance, kind)
    message = read_there(kind, body)
    expected = None if message is None else values_of(message, operation.gives)
    expect(read_by_client(client, chance, operation, body), expected)


# How often each class of differences was seen.
SEEN = Counter()
SEEN_LEAST = 20


def expect_alike(body, found, expected, is_list=False):
    """The same message, or none, or a difference in a class that is named."""
    name = unlisted.deciding(unlisted.features(body, is_list))
    stated = unlisted.DIFFERENCES.get(name)
    # Whoever is said to refuse the class does so, whether or not the other reads it.
    refuses = {unlisted.WE_REFUSE: found, unlisted.IT_REFUSES: expected}
    if refuses.get(stated) is not None:
        raise AssertionError(f"not refused: {name}: {body.hex(' ')}")
    if found == expected:
        expect(found, expected)
        return
    difference = unlisted.OTHER_MESSAGE
    if found is None:
        difference = unlisted.WE_REFUSE
    elif expected is None:
        difference = unlisted.IT_REFUSES
    if difference != stated:
        raise AssertionError(f"{difference}, in no class: {body.hex(' ')}")
    SEEN[name] += 1


def unlisted_fields_are_read_alike(bodies, chance, kind):
    own = [some_field(chance, field) for field in kind.DESCRIPTOR.fields]
    body = unlisted.mixed(chance, own)
    expect_alike(body, read_here(bodies, kind, body), read_there(kind, body))


def unlisted_fields_are_read_alike_by_the_client(client, chance, operation):
    kind = operation.response or Empty
    is_list = operation.output in (PROVIDERS, OPCODES)

    def generate(chance, kind):
        one = some_list_field if is_list else some_field
        own = [one(chance, field) for field in kind.DESCRIPTOR.fields]
        if is_list and chance.random() < 0.1:
            own.append(unlisted.varint(1 << 3) + unlisted.varint(some_number(chance)))
        return unlisted.mixed(chance, own + own[: chance.randrange(2)])

    body = short_enough(generate, chance, kind)
    message = read_there(kind, body)
    expected = None if message is None else values_of(message, operation.gives)
    found = read_by_client(client, chance, operation, body)
    expect_alike(body, found, expected, is_list)


def check_unlisted_fields(bodies, client):
    """The classes are those of Google's C++ library."""
    if api_implementation.Type() != "cpp":
        print("unlisted fields: not compared, for this is not Google's C++ library")
        return
    # Google's library says so of an end of a group outside of groups, and gives what stands before it.
    warnings.filterwarnings("ignore", "Unexpected end-group tag")
    for kind in [*REQUESTS, Empty]:
        repeat(unlisted_fields_are_read_alike, bodies, kind)
    for operation in OPERATIONS:
        repeat(unlisted_fields_are_read_alike_by_the_client, client, operation)
    for name, difference in unlisted.DIFFERENCES.items():
        print(f"{difference}: {name}: seen {SEEN[name]} times")
        if SEEN[name] < SEEN_LEAST:
            sys.exit(f"failed: hardly ever seen: {name}")


def repeat(check, subject, *kind):
    titles = [k.name if isinstance(k, Operation) else k.DESCRIPTOR.name for k in kind]
    name = " ".join([check.__name__.replace("_", " "), *titles])
    before = Compared.count
    for run in range(RUNS):
        seed = f"{SEED} {name} {run}"
        try:
            check(subject, random.Random(seed), *kind)
        except Exception as error:
            sys.exit(f"failed: {name}, run {run}, seed {seed!r}: {error!r}")
    if Compared.count - before < max(RUNS // 10, 1):
        sys.exit(f"failed: {name}: hardly anything was compared")
    print(f"{name}: {RUNS} runs")


def main():
    bodies = Bodies(sys.argv[1])
    roster = b"\x01" + struct.pack("<H", len(APPLICATION)) + APPLICATION
    service = Service(sys.argv[2], roster)
    client = Client(sys.argv[3])
    print(f"google.protobuf {google.protobuf.__version__}, {api_implementation.Type()}")
    for kind in REQUESTS:
        repeat(serialised_there_is_read_here, bodies, kind)
        repeat(any_form_is_read_alike, bodies, kind)
    for kind in [*REQUESTS, *RESPONSES, VERIFY_REQUEST]:
        repeat(written_here_is_read_there, bodies, kind)
    repeat(core_answers_parse, service)
    repeat(broken_body_has_its_offset, service)
    repeat(key_comes_back, service)
    repeat(signature_is_checked, service)
    expect({operation.name for operation in OPERATIONS}, set(Client.ARGUMENTS))
    for operation in OPERATIONS:
        repeat(written_by_the_client_is_read_there, client, operation)
        repeat(serialised_there_is_read_by_the_client, client, operation)
        repeat(an_offset_is_read_by_the_client, client, operation)
        if operation.response is not None:
            repeat(any_form_is_read_alike_by_the_client, client, operation)
    check_unlisted_fields(bodies, client)
    print("proto: passed")


if __name__ == "__main__":
    main()
