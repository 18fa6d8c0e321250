"""The compiled, proved functions, called through shared objects made from their archives.

A slice is passed as its pointer and its length. `crates/probe` exports the readers and writers of
bodies, `crates/abi` the service, `crates/client_abi` the client.
"""

import ctypes
import struct

SLICE = [ctypes.c_void_p, ctypes.c_size_t]
REFUSED = ctypes.c_size_t(-1).value

REGISTRY_SIZE = 41_672
CONNECTION_SIZE = 4_431
# taken, answered, dropped; served by 8 lines; unauthenticated; refused by 19 statuses
COUNTERS = 3 + 8 + 1 + 19
RESPONSE_BUFFER = 1_024
JOURNAL_BUFFER = 1_024
RESPONSE_HEADER = "<IHBBBQBIHH"

REQUEST_BUFFER = 5_120
REQUEST_HEADER = "<IHBBBQBBBIHH"
STATE_SIZE = 1_037
# Of bodies: Protocol Buffers, both ways.
FORMAT = 1
# Numbers of the client's answers.
WAITING, RESPONSE, UNREADABLE_BODY = 0, 1, 9
NOTHING, VERSION, PROVIDERS, OPCODES, DATA, OFFSET = range(6)


class Bodies:
    """Reads and writes message bodies."""

    # Values behind the 0 or 1 in front: start, length and number of fields 1 to 5.
    READ = ctypes.c_uint64 * 16

    def __init__(self, path):
        library = ctypes.CDLL(path)
        self._read = library.probe_read_body
        self._read.argtypes = SLICE + [ctypes.c_uint8, ctypes.POINTER(self.READ)]
        self._read.restype = None
        self._varint = library.probe_write_varint
        self._varint.argtypes = SLICE + [ctypes.c_uint64]
        self._number = library.probe_write_number_field
        self._number.argtypes = SLICE + [ctypes.c_uint64, ctypes.c_uint64]
        self._bytes = library.probe_write_bytes_field
        self._bytes.argtypes = SLICE + [ctypes.c_uint64] + SLICE
        for writer in (self._varint, self._number, self._bytes):
            writer.restype = ctypes.c_size_t

    def read(self, schema, body):
        """(bytes, number) of fields 1 to 5, or None for an unreadable body."""
        out = self.READ()
        self._read(body, len(body), schema, out)
        if out[0] == 0:
            return None
        values = [out[1 + 3 * place : 4 + 3 * place] for place in range(5)]
        return [(body[start : start + length], number) for start, length, number in values]

    def _written(self, writer, room, *arguments):
        out = ctypes.create_string_buffer(room)
        count = writer(out, room, *arguments)
        if count == REFUSED:
            raise ValueError("refused by the writer")
        return out.raw[:count]

    def varint(self, value):
        return self._written(self._varint, 10, value)

    def number_field(self, number, value):
        return self._written(self._number, 20, number, value)

    def bytes_field(self, number, value):
        return self._written(self._bytes, 20 + len(value), number, value, len(value))


class Answer(ctypes.Structure):
    _fields_ = [
        ("code", ctypes.c_uint32),
        ("taken", ctypes.c_size_t),
        ("written", ctypes.c_size_t),
        ("recorded", ctypes.c_size_t),
    ]


class Service:
    """One connection to a service with this roster, no keys and an empty list."""

    def __init__(self, path, roster):
        library = ctypes.CDLL(path)
        load = library.razidkot_load_roster
        load.argtypes = SLICE + SLICE
        load.restype = ctypes.c_uint32
        open_connection = library.razidkot_open_connection
        open_connection.argtypes = SLICE
        open_connection.restype = ctypes.c_uint32
        self._call = library.razidkot_call
        self._call.argtypes = SLICE * 4 + [ctypes.c_void_p] + SLICE * 2
        self._call.restype = Answer
        self._registry = ctypes.create_string_buffer(REGISTRY_SIZE)
        self._connection = ctypes.create_string_buffer(CONNECTION_SIZE)
        self._counters = (ctypes.c_uint64 * COUNTERS)()
        if load(roster, len(roster), self._registry, REGISTRY_SIZE) != 0:
            raise ValueError("a refused roster")
        if open_connection(self._connection, CONNECTION_SIZE) != 0:
            raise ValueError("connection memory of a wrong size")

    def ask(self, request):
        """The header's fields behind the magic, and the body, of the response to one request."""
        response = ctypes.create_string_buffer(RESPONSE_BUFFER)
        journal = ctypes.create_string_buffer(JOURNAL_BUFFER)
        memory = (self._connection, CONNECTION_SIZE, self._registry, REGISTRY_SIZE, None, 0)
        buffers = (response, RESPONSE_BUFFER, journal, JOURNAL_BUFFER)
        answer = self._call(request, len(request), *memory, self._counters, *buffers)
        if (answer.code, answer.taken) != (0, len(request)):
            raise ValueError(f"a call not taken whole: {answer.code}, {answer.taken}")
        written = response.raw[: answer.written]
        header = struct.calcsize(RESPONSE_HEADER)
        return struct.unpack(RESPONSE_HEADER, written[:header])[1:], written[header:]


class Request(ctypes.Structure):
    _fields_ = [("code", ctypes.c_uint32), ("written", ctypes.c_size_t)]


class OutputNumbers(ctypes.Structure):
    _fields_ = [
        ("kind", ctypes.c_uint32),
        ("major", ctypes.c_uint32),
        ("minor", ctypes.c_uint32),
        ("offset", ctypes.c_uint32),
        ("start", ctypes.c_size_t),
        ("length", ctypes.c_size_t),
    ]


class ClientAnswer(ctypes.Structure):
    _fields_ = [
        ("code", ctypes.c_uint32),
        ("status", ctypes.c_uint32),
        ("taken", ctypes.c_size_t),
        ("output", OutputNumbers),
    ]


class Client:
    """Writes requests and reads responses."""

    # What an operation's function takes behind session and application.
    ARGUMENTS = {
        "ping": [],
        "list_providers": [],
        "list_opcodes": [ctypes.c_uint32],
        "import": SLICE + SLICE + [ctypes.c_uint32, ctypes.c_bool, ctypes.c_bool],
        "destroy": SLICE,
        "export": SLICE,
        "verify": SLICE * 3,
    }

    def __init__(self, path):
        library = ctypes.CDLL(path)
        self._writers = {}
        for operation, arguments in self.ARGUMENTS.items():
            writer = getattr(library, f"razidkot_client_write_{operation}")
            types = [ctypes.c_uint64, ctypes.c_uint8, ctypes.c_uint8, ctypes.c_bool]
            writer.argtypes = SLICE + types + SLICE + arguments
            writer.restype = Request
            self._writers[operation] = writer
        self._begin = library.razidkot_client_begin
        self._begin.argtypes = SLICE + [ctypes.c_uint16, ctypes.c_uint64, ctypes.c_uint8]
        self._begin.restype = ctypes.c_uint32
        self._read = library.razidkot_client_read
        self._read.argtypes = SLICE + SLICE
        self._read.restype = ClientAnswer
        self._read_list = library.razidkot_client_read_list
        entries = [ctypes.POINTER(ctypes.c_uint32), ctypes.c_size_t]
        self._read_list.argtypes = [ctypes.c_uint8] + SLICE + entries
        self._read_list.restype = ctypes.c_size_t

    def write(self, operation, session, application, *values):
        """The header's fields, the body and the auth bytes of a request; without application, nobody's."""
        out = ctypes.create_string_buffer(REQUEST_BUFFER)
        name = application or b""
        spread = []
        for value in values:
            spread += [value, len(value)] if isinstance(value, bytes) else [value]
        sender = (session, FORMAT, FORMAT, application is not None, name, len(name))
        request = self._writers[operation](out, REQUEST_BUFFER, *sender, *spread)
        if request.code != 0:
            raise ValueError(f"a request refused: {request.code}")
        written = out.raw[: request.written]
        start = struct.calcsize(REQUEST_HEADER)
        header = struct.unpack(REQUEST_HEADER, written[:start])
        end = start + header[-3]
        return header, written[start:end], written[end:]

    def read(self, opcode, session, chunks):
        """The code, the status, the output's kind and its values, once there is more than to wait."""
        state = ctypes.create_string_buffer(STATE_SIZE)
        if self._begin(state, STATE_SIZE, opcode, session, FORMAT) != 0:
            raise ValueError("a state not begun")
        for chunk in chunks:
            answer = self._read(state, STATE_SIZE, chunk, len(chunk))
            if answer.code != WAITING:
                break
            if answer.taken != len(chunk):
                raise ValueError("it waits, and has not taken all")
        output = answer.output
        return answer.code, answer.status, output.kind, self._values(state.raw, output)

    def _values(self, memory, output):
        if output.kind == NOTHING:
            return []
        if output.kind == VERSION:
            return [output.major, output.minor]
        if output.kind == OFFSET:
            return [output.offset]
        placed = memory[output.start : output.start + output.length]
        if output.kind == DATA:
            return [placed]
        # Each entry has at least one byte.
        entries = (ctypes.c_uint32 * len(placed))()
        count = self._read_list(FORMAT, placed, len(placed), entries, len(placed))
        return [entries[:count]]
