"""Bodies with fields that are not listed, groups and damage, and where Google's reader and ours differ.

Google's reader is its C++ library, which the Python library calls. `features` walks a body as far as
both readers go on, and notes each thing that they treat otherwise: where it notes nothing, both read the
same message or neither reads one. Document 02, "Unlisted fields".
"""

VARINT, FIXED64, BYTES, START_GROUP, END_GROUP, FIXED32 = range(6)
WIRE_TYPES = [VARINT, FIXED64, BYTES, FIXED32]
HIGHEST_NUMBER = 2**29 - 1
# How deep groups may stand inside each other.
DEEPEST_HERE, DEEPEST_THERE = 16, 100

WE_REFUSE = "we refuse, it reads"
IT_REFUSES = "we read, it refuses"
OTHER_MESSAGE = "both read, each another message"

DEEP_GROUPS = "groups 17 to 100 deep"
STRAY_END = "an end of a group outside of groups"
TAG_0 = "a tag of 0 outside of groups"
WIDE_TAG = "a tag of five bytes above 2^32 - 1"
WIDE_NUMBER = "a number whose tenth byte is 2 to 127"
LONG_TAG = "a tag of more than five bytes"
LONG_LENGTH = "a length of more than five bytes"
SEVERAL_LISTS = "several packed lists"
UNPACKED_ENTRY = "a list's entry that is not packed"

# Every class of bodies that are not read alike. docs/ has the reasons.
DIFFERENCES = {
    DEEP_GROUPS: WE_REFUSE,
    STRAY_END: WE_REFUSE,
    TAG_0: WE_REFUSE,
    WIDE_TAG: WE_REFUSE,
    WIDE_NUMBER: WE_REFUSE,
    LONG_TAG: IT_REFUSES,
    LONG_LENGTH: IT_REFUSES,
    SEVERAL_LISTS: OTHER_MESSAGE,
    UNPACKED_ENTRY: OTHER_MESSAGE,
}


def deciding(noted):
    """The feature that decides how a body with these is read, or None."""
    # The first reader that refuses reads no further, whatever comes behind.
    refused = [feature for feature in noted if DIFFERENCES[feature] != OTHER_MESSAGE]
    return (refused or noted or [None])[0]


# ---- what is in a body


class Ended(Exception):
    """Neither reader reads on."""


class Walk:
    def __init__(self, body, is_list):
        self.body = body
        self.at = 0
        # Field 1 is a list of numbers.
        self.is_list = is_list
        self.lists = 0
        self.noted = []

    def note(self, feature):
        self.noted.append(feature)

    def varint(self):
        """A varint's value, cut to 64 bits or not, and how many bytes it has."""
        value = 0
        for place, byte in enumerate(self.body[self.at : self.at + 10]):
            value |= (byte & 0x7F) << 7 * place
            if byte < 0x80:
                self.at += place + 1
                return value, place + 1
        raise Ended

    def number(self):
        value, _ = self.varint()
        if value >= 2**64:
            self.note(WIDE_NUMBER)

    def tag(self):
        tag, length = self.varint()
        if length > 5:
            if tag >= 2**32:
                raise Ended
            self.note(LONG_TAG)
        elif tag >= 2**32:
            self.note(WIDE_TAG)
        tag %= 2**32
        return tag >> 3, tag & 7

    def skip(self, length):
        if length > len(self.body) - self.at:
            raise Ended
        self.at += length

    def bytes(self):
        length, bytes_of_length = self.varint()
        start = self.at
        self.skip(length)
        if bytes_of_length > 5:
            self.note(LONG_LENGTH)
        return self.body[start : self.at]

    def list(self, packed):
        self.lists += 1
        if self.lists > 1:
            self.note(SEVERAL_LISTS)
        entries = Walk(packed, False)
        while entries.at < len(packed):
            entries.number()
        self.noted += entries.noted

    def value(self, number, wire_type, depth):
        is_list = self.is_list and number == 1 and depth == 0
        if wire_type == VARINT:
            if is_list:
                self.note(UNPACKED_ENTRY)
            self.number()
        elif wire_type == BYTES:
            content = self.bytes()
            if is_list:
                self.list(content)
        elif wire_type == START_GROUP:
            self.group(number, depth + 1)
        elif wire_type in (FIXED32, FIXED64):
            self.skip(8 if wire_type == FIXED64 else 4)
        else:
            raise Ended

    def group(self, number, depth):
        if depth > DEEPEST_THERE:
            raise Ended
        if depth == DEEPEST_HERE + 1:
            self.note(DEEP_GROUPS)
        while True:
            inner, wire_type = self.tag()
            if inner == 0:
                raise Ended
            if wire_type == END_GROUP:
                if inner != number:
                    raise Ended
                return
            self.value(inner, wire_type, depth)

    def field(self):
        number, wire_type = self.tag()
        # Google's reader stops there, and gives what it has read.
        if wire_type == END_GROUP:
            self.note(STRAY_END)
        elif (number, wire_type) == (0, VARINT):
            self.note(TAG_0)
        if number == 0 or wire_type == END_GROUP:
            raise Ended
        self.value(number, wire_type, 0)


def features(body, is_list=False):
    """What of the body the readers treat otherwise, in its order."""
    walk = Walk(body, is_list)
    try:
        while walk.at < len(body):
            walk.field()
    except Ended:
        pass
    return walk.noted


# ---- generated bodies


def varint(value, length=1):
    """A varint of at least so many bytes."""
    groups = [value & 0x7F]
    while value := value >> 7:
        groups.append(value & 0x7F)
    groups += [0] * (length - len(groups))
    return bytes(group | 0x80 for group in groups[:-1]) + bytes(groups[-1:])


def some_number(chance):
    return chance.choice([1, 2, 3, 4, 5, 6, 15, 16, 2_047, 2_048, HIGHEST_NUMBER])


def some_length(chance):
    """Of a tag or a length, seldom longer than Google's reader takes."""
    return chance.choice([1] * 16 + [2, 5] * 2 + [6, 10])


def some_content(chance, wire_type):
    if wire_type == VARINT:
        return varint(chance.getrandbits(64) >> chance.randrange(64), chance.choice([1, 1, 1, 10]))
    if wire_type == BYTES:
        content = chance.randbytes(chance.choice([0, 1, 2, 20]))
        return varint(len(content), some_length(chance)) + content
    return chance.randbytes(8 if wire_type == FIXED64 else 4)


def some_field(chance):
    """Not a group, of any number."""
    wire_type = chance.choice(WIRE_TYPES)
    tag = varint(some_number(chance) << 3 | wire_type, some_length(chance))
    return tag + some_content(chance, wire_type)


def inside_groups(chance, depth, content):
    for _ in range(depth):
        number = some_number(chance)
        beside = some_field(chance) if chance.random() < 0.1 else b""
        start = varint(number << 3 | START_GROUP)
        content = start + beside + content + varint(number << 3 | END_GROUP)
    return content


def some_damage(chance):
    """What one reader or both refuse."""
    number = some_number(chance)
    wire_type = chance.choice(WIRE_TYPES)
    tag = number << 3 | wire_type
    content = some_content(chance, wire_type)
    tenth = bytes([chance.choice([2, 3, 0x7F, 0x80])])
    return chance.choice(
        [
            varint(tag | 1 << chance.choice([32, 33, 34, 35, 63])) + content,
            varint(wire_type, some_length(chance)) + content,
            varint(number << 3 | chance.choice([6, 7])),
            varint(number << 3 | VARINT) + b"\x85" * 9 + tenth,
            varint(number << 3 | END_GROUP),
            varint(number << 3 | START_GROUP) + content,
        ]
    )


def some_piece(chance):
    """Fields between those of a message: skipped more often than not."""
    content = some_damage(chance) if chance.random() < 0.25 else some_field(chance)
    depths = [0] * 6 + [1, 2, 15, 16] * 2 + [17, 18, 99, 100, 101]
    return inside_groups(chance, chance.choice(depths), content)


def mixed(chance, own):
    """The message's own fields with pieces between them; some bodies are cut, or a byte is changed."""
    pieces = [*own, *(some_piece(chance) for _ in range(chance.choice([0, 1, 1, 2, 3])))]
    chance.shuffle(pieces)
    body = b"".join(pieces)
    change = chance.random()
    if change < 0.1:
        return body[: chance.randrange(len(body) + 1)]
    if change < 0.2 and body:
        at = chance.randrange(len(body))
        return body[:at] + bytes([body[at] ^ 1 << chance.randrange(8)]) + body[at + 1 :]
    return body
