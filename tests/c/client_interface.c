/*
 * include/razidkot_client.h holds of the archive: every field of its structs comes back where it is declared, every argument
 * arrives, and empty, short and long memory is answered. C99 and C++11.
 */
#include "razidkot_client.h"

#include <stdio.h>
#include <string.h>

#define LEAST RAZIDKOT_CLIENT_LEAST_REQUEST_BUFFER
#define SIZE RAZIDKOT_CLIENT_STATE_SIZE
#define P RAZIDKOT_CLIENT_BODY_FORMAT_PROTOBUF
#define T RAZIDKOT_CLIENT_BODY_FORMAT_TAGGED

static uint8_t out[LEAST];
static uint8_t state[SIZE + 1];
static const uint8_t application[] = {'s', 'c', 'a', 'n'};
static const uint8_t name[] = {'k', 'e', 'y'};
static const uint8_t data[] = {0xAA, 0xBB};
static const uint8_t hash[] = {'t', 'h', 'i', 'r', 't', 'y', '-', 't', 'w', 'o', ' ', 'b', 'y', 't', 'e', 's',
                               ' ', 'o', 'f', ' ', 's', 'o', 'm', 'e', ' ', 'S', 'H', 'A', '-', '2', '5', '6'};
static const uint8_t signature[RAZIDKOT_CLIENT_LONGEST_BODY] = {0xCC, 0xDD};
static const uint64_t session = UINT64_C(0x0102030405060708);
static int failed;

static void expect(const char *what, uint64_t is, uint64_t expected)
{
    if (is != expected) {
        printf("%s: %llu, expected %llu\n", what, (unsigned long long)is, (unsigned long long)expected);
        failed = 1;
    }
}

/* A request's provider, auth type, opcode, content and accept type, and what stands behind its header. */
static void expect_request(const char *what, razidkot_client_request request, const uint8_t *head, const char *rest,
                           size_t rest_length)
{
    expect(what, request.code, RAZIDKOT_CLIENT_WRITE_WRITTEN);
    expect(what, request.written, 28 + rest_length);
    expect(what, out[8], head[0]);
    for (size_t at = 0; at < 8; at++)
        expect(what, out[9 + at], (uint8_t)(session >> (8 * at)));
    expect(what, out[17], head[3]);
    expect(what, out[18], head[4]);
    expect(what, out[19], head[1]);
    expect(what, out[26], head[2]);
    expect(what, memcmp(out + 28, rest, rest_length) != 0, 0);
}

static void expect_requests(void)
{
    const size_t a = sizeof application, n = sizeof name, d = sizeof data, h = sizeof hash;
    const uint8_t ping[] = {0, 1, RAZIDKOT_CLIENT_OPCODE_PING, P, P};
    const uint8_t providers[] = {0, 0, RAZIDKOT_CLIENT_OPCODE_LIST_PROVIDERS, P, P};
    const uint8_t opcodes[] = {0, 1, RAZIDKOT_CLIENT_OPCODE_LIST_OPCODES, P, P};
    const uint8_t import[] = {1, 1, RAZIDKOT_CLIENT_OPCODE_PSA_IMPORT_KEY, P, P};
    const uint8_t destroy[] = {1, 1, RAZIDKOT_CLIENT_OPCODE_PSA_DESTROY_KEY, P, P};
    const uint8_t exported[] = {1, 0, RAZIDKOT_CLIENT_OPCODE_PSA_EXPORT_PUBLIC_KEY, P, P};
    const uint8_t verify[] = {1, 1, RAZIDKOT_CLIENT_OPCODE_PSA_ASYMMETRIC_VERIFY, P, P};
    expect_request("ping", razidkot_client_write_ping(out, LEAST, session, P, P, true, application, a), ping, "scan", 4);
    expect_request("providers", razidkot_client_write_list_providers(out, LEAST, session, P, P, false, NULL, 0), providers, "",
                   0);
    expect_request("opcodes",
                   razidkot_client_write_list_opcodes(out, LEAST, session, P, P, true, application, a,
                                                      RAZIDKOT_CLIENT_PROVIDER_KEYSTORE),
                   opcodes, "\x08\x01scan", 6);
    expect_request("import",
                   razidkot_client_write_import(out, LEAST, session, P, P, true, application, a, name, n, data, d, 2048, false,
                                                true),
                   import, "\x0A\x03key\x12\x02\xAA\xBB\x18\x80\x10\x28\x01scan", 18);
    expect_request("destroy", razidkot_client_write_destroy(out, LEAST, session, P, P, true, application, a, name, n), destroy,
                   "\x0A\x03keyscan", 9);
    expect_request("export", razidkot_client_write_export(out, LEAST, session, P, P, false, application, a, name, n), exported,
                   "\x0A\x03key", 5);
    expect_request("verify",
                   razidkot_client_write_verify(out, LEAST, session, P, P, true, application, a, name, n, hash, h, signature,
                                                2),
                   verify, "\x0A\x03key\x12\x20thirty-two bytes of some SHA-256\x1A\x02\xCC\xDDscan", 47);
    expect_request("verify nothing",
                   razidkot_client_write_verify(out, LEAST, session, P, P, true, application, a, name, n, hash, h, NULL, 0),
                   verify, "\x0A\x03key\x12\x20thirty-two bytes of some SHA-256scan", 43);
}

/* Both formats of a body, and a format of its own for the response. */
static void expect_formats(void)
{
    const size_t a = sizeof application, n = sizeof name, d = sizeof data;
    const uint8_t opcodes[] = {0, 1, RAZIDKOT_CLIENT_OPCODE_LIST_OPCODES, T, P};
    const uint8_t import[] = {1, 1, RAZIDKOT_CLIENT_OPCODE_PSA_IMPORT_KEY, T, T};
    const uint8_t exported[] = {1, 0, RAZIDKOT_CLIENT_OPCODE_PSA_EXPORT_PUBLIC_KEY, P, T};
    expect_request("opcodes",
                   razidkot_client_write_list_opcodes(out, LEAST, session, T, P, true, application, a,
                                                      RAZIDKOT_CLIENT_PROVIDER_KEYSTORE),
                   opcodes, "\x01\x04\x00\x01\x00\x00\x00scan", 11);
    expect_request("import",
                   razidkot_client_write_import(out, LEAST, session, T, T, true, application, a, name, n, data, d, 2048,
                                                false, true),
                   import, "\x01\x03\x00key\x02\x02\x00\xAA\xBB\x03\x04\x00\x00\x08\x00\x00\x05\x01\x00\x01scan", 26);
    expect_request("export", razidkot_client_write_export(out, LEAST, session, P, T, false, application, a, name, n),
                   exported, "\x0A\x03key", 5);
    memset(out, 0xEE, sizeof out);
    const uint32_t unlisted = RAZIDKOT_CLIENT_WRITE_TYPE_UNLISTED;
    expect("no type", razidkot_client_write_ping(out, LEAST, session, 0, P, false, NULL, 0).code, unlisted);
    expect("another type", razidkot_client_write_ping(out, LEAST, session, P, 3, false, NULL, 0).code, unlisted);
    expect("before all else", razidkot_client_write_ping(NULL, 0, session, 0xFF, 0xFF, true, NULL, 0).code, unlisted);
    for (size_t at = 0; at < sizeof out; at++)
        expect("the buffer", out[at], 0xEE);
}

static razidkot_client_request import_of(size_t length, size_t a, size_t n, size_t d, uint32_t bits)
{
    return razidkot_client_write_import(out, length, session, P, P, true, application, a, name, n, data, d, bits, true, true);
}

static razidkot_client_request verify_of(size_t length, size_t a, size_t n, size_t h, size_t s)
{
    return razidkot_client_write_verify(out, length, session, P, P, true, application, a, name, n, hash, h, signature, s);
}

/* The name's field has 5 bytes, the hash's 34, the signature's 3 more than it. */
static void expect_verify_refusals(void)
{
    const size_t h = RAZIDKOT_CLIENT_HASH_SIZE, longest = RAZIDKOT_CLIENT_LONGEST_BODY - 5 - 34 - 3;
    const size_t too_long = sizeof signature;
    memset(out, 0xEE, sizeof out);
    expect("short", verify_of(LEAST - 1, 0, 0, 0, too_long).code, RAZIDKOT_CLIENT_WRITE_BUFFER_TOO_SMALL);
    expect("its application", verify_of(LEAST, 0, 0, 0, too_long).code, RAZIDKOT_CLIENT_WRITE_APPLICATION_NAME_ILLEGAL);
    expect("its name", verify_of(LEAST, 1, 0, 0, too_long).code, RAZIDKOT_CLIENT_WRITE_KEY_NAME_ILLEGAL);
    expect("no hash", verify_of(LEAST, 1, 3, 0, too_long).code, RAZIDKOT_CLIENT_WRITE_HASH_ILLEGAL);
    expect("its hash", verify_of(LEAST, 1, 3, h - 1, too_long).code, RAZIDKOT_CLIENT_WRITE_HASH_ILLEGAL);
    expect("its body", verify_of(LEAST, 1, 3, h, too_long).code, RAZIDKOT_CLIENT_WRITE_BODY_TOO_LONG);
    expect("a byte too long", verify_of(LEAST, 1, 3, h, longest + 1).code, RAZIDKOT_CLIENT_WRITE_BODY_TOO_LONG);
    expect("nothing written", verify_of(LEAST, 1, 3, h, longest + 1).written, 0);
    for (size_t at = 0; at < sizeof out; at++)
        expect("the buffer", out[at], 0xEE);
    expect("as long as can be", verify_of(LEAST, 1, 3, h, longest).written, 28 + RAZIDKOT_CLIENT_LONGEST_BODY + 1);
}

static void expect_write_refusals(void)
{
    memset(out, 0xEE, sizeof out);
    expect("no buffer", razidkot_client_write_ping(NULL, 0, session, P, P, false, NULL, 0).code,
           RAZIDKOT_CLIENT_WRITE_BUFFER_TOO_SMALL);
    expect("short", import_of(LEAST - 1, 0, 0, 0, 0).code, RAZIDKOT_CLIENT_WRITE_BUFFER_TOO_SMALL);
    expect("its application", import_of(LEAST, 0, 0, 0, 0).code, RAZIDKOT_CLIENT_WRITE_APPLICATION_NAME_ILLEGAL);
    expect("its name", import_of(LEAST, 1, 0, 0, 0).code, RAZIDKOT_CLIENT_WRITE_KEY_NAME_ILLEGAL);
    expect("its data", import_of(LEAST, 1, 1, 0, 0).code, RAZIDKOT_CLIENT_WRITE_DATA_ILLEGAL);
    expect("its bits", import_of(LEAST, 1, 1, 1, 0).code, RAZIDKOT_CLIENT_WRITE_BITS_ILLEGAL);
    expect("nothing written", import_of(LEAST, 1, 1, 1, 0).written, 0);
    for (size_t at = 0; at < sizeof out; at++)
        expect("the buffer", out[at], 0xEE);
}

static void expect_states(void)
{
    const uint16_t ping = RAZIDKOT_CLIENT_OPCODE_PING;
    memset(state, 0xEE, sizeof state);
    expect("no memory", razidkot_client_begin(NULL, 0, ping, 0, P), RAZIDKOT_CLIENT_BEGIN_WRONG_SIZE);
    expect("short", razidkot_client_begin(state, SIZE - 1, ping, 0, P), RAZIDKOT_CLIENT_BEGIN_WRONG_SIZE);
    expect("long", razidkot_client_begin(state, SIZE + 1, ping, 0, 0), RAZIDKOT_CLIENT_BEGIN_WRONG_SIZE);
    expect("opcode", razidkot_client_begin(state, SIZE, 0x0101, 0, 0), RAZIDKOT_CLIENT_BEGIN_UNLISTED_OPCODE);
    expect("type", razidkot_client_begin(state, SIZE, ping, 0, 3), RAZIDKOT_CLIENT_BEGIN_UNLISTED_TYPE);
    for (size_t at = 0; at < sizeof state; at++)
        expect("the memory", state[at], 0xEE);
    const razidkot_client_answer answer = razidkot_client_read(state, SIZE, data, sizeof data);
    expect("ill formed", answer.code, RAZIDKOT_CLIENT_READ_STATE_ILL_FORMED);
    expect("none taken", answer.taken, 0);
    expect("no state", razidkot_client_read(NULL, 0, NULL, 0).code, RAZIDKOT_CLIENT_READ_STATE_ILL_FORMED);
    expect("fresh", razidkot_client_begin(state, SIZE, ping, session, T), RAZIDKOT_CLIENT_BEGIN_FRESH);
    expect("opcode", state[0], ping);
    expect("session", state[9], 1);
    expect("type", state[10], T);
    expect("empty chunk", razidkot_client_read(state, SIZE, NULL, 0).code, RAZIDKOT_CLIENT_READ_WAITING);
}

/* Begins a state, and reads a response to it of this content and accept type with this provider, opcode and status, and
   this body, in two chunks. */
static razidkot_client_answer read_typed(uint8_t type, uint8_t provider, uint8_t opcode, uint16_t status, const char *body,
                                         size_t length)
{
    uint8_t header[26] = {0x10, 0xA7, 0xC0, 0x5E, 20, 0, 1, 0, 0, 8, 7, 6, 5, 4, 3, 2, 1, 1, 0, 0, 0, 0, 0, 0, 0, 0};
    header[8] = provider;
    header[17] = type;
    header[18] = (uint8_t)length;
    header[22] = opcode;
    header[24] = (uint8_t)status;
    header[25] = (uint8_t)(status >> 8);
    expect("fresh", razidkot_client_begin(state, SIZE, opcode, session, type), RAZIDKOT_CLIENT_BEGIN_FRESH);
    razidkot_client_answer answer = razidkot_client_read(state, SIZE, header, sizeof header);
    expect("the header", answer.taken, sizeof header);
    return razidkot_client_read(state, SIZE, (const uint8_t *)body, length);
}

static razidkot_client_answer read_body(uint8_t provider, uint8_t opcode, uint16_t status, const char *body, size_t length)
{
    return read_typed(P, provider, opcode, status, body, length);
}

static void expect_answer(const char *what, razidkot_client_answer answer, uint32_t code, uint32_t status, size_t taken,
                          razidkot_client_output output)
{
    expect(what, answer.code, code);
    expect(what, answer.status, status);
    expect(what, answer.taken, taken);
    expect(what, answer.output.kind, output.kind);
    expect(what, answer.output.major, output.major);
    expect(what, answer.output.minor, output.minor);
    expect(what, answer.output.offset, output.offset);
    expect(what, answer.output.start, output.start);
    expect(what, answer.output.length, output.length);
}

/* By the fields' names: their order is a part of what is tested. */
static razidkot_client_output output_of(uint32_t kind, uint32_t major, uint32_t minor, size_t start, size_t length)
{
    razidkot_client_output output;
    output.kind = kind;
    output.major = major;
    output.minor = minor;
    output.offset = 0;
    output.start = start;
    output.length = length;
    return output;
}

static razidkot_client_output offset_of(uint32_t offset)
{
    razidkot_client_output output = output_of(RAZIDKOT_CLIENT_OUTPUT_OFFSET, 0, 0, 0, 0);
    output.offset = offset;
    return output;
}

static void expect_offsets(void)
{
    const uint8_t import = RAZIDKOT_CLIENT_OPCODE_PSA_IMPORT_KEY;
    const uint32_t status = RAZIDKOT_DESERIALIZING_BODY_FAILED;
    expect_answer("the first byte", read_body(1, import, status, "", 0), RAZIDKOT_CLIENT_READ_RESPONSE, status, 0,
                  offset_of(0));
    expect_answer("a byte", read_body(1, import, status, "\x08\xFF\x1F", 3), RAZIDKOT_CLIENT_READ_RESPONSE, status, 3,
                  offset_of(4095));
    expect_answer("no offset", read_body(1, import, status, "\x08", 1), RAZIDKOT_CLIENT_READ_UNREADABLE_BODY, 0, 1,
                  output_of(RAZIDKOT_CLIENT_OUTPUT_NOTHING, 0, 0, 0, 0));
}

static void expect_outputs(void)
{
    const razidkot_client_output nothing = output_of(RAZIDKOT_CLIENT_OUTPUT_NOTHING, 0, 0, 0, 0);
    const razidkot_client_output version = output_of(RAZIDKOT_CLIENT_OUTPUT_VERSION, 0xFFFFFFFF, 300, 0, 0);
    const razidkot_client_output exported = output_of(RAZIDKOT_CLIENT_OUTPUT_DATA, 0, 0, 13 + 26 + 2, 3);
    expect_answer("version", read_body(0, RAZIDKOT_CLIENT_OPCODE_PING, 0, "\x08\xFF\xFF\xFF\xFF\x0F\x10\xAC\x02", 9),
                  RAZIDKOT_CLIENT_READ_RESPONSE, RAZIDKOT_SUCCESS, 9, version);
    expect_answer("data", read_body(1, RAZIDKOT_CLIENT_OPCODE_PSA_EXPORT_PUBLIC_KEY, 0, "\x0A\x03xyz", 5),
                  RAZIDKOT_CLIENT_READ_RESPONSE, RAZIDKOT_SUCCESS, 5, exported);
    expect("it lies there", memcmp(state + exported.start, "xyz", 3) != 0, 0);
    expect_answer("a good signature", read_body(1, RAZIDKOT_CLIENT_OPCODE_PSA_ASYMMETRIC_VERIFY, 0, "", 0),
                  RAZIDKOT_CLIENT_READ_RESPONSE, RAZIDKOT_SUCCESS, 0, nothing);
    expect_answer("a bad one", read_body(1, RAZIDKOT_CLIENT_OPCODE_PSA_ASYMMETRIC_VERIFY, 1149, "", 0),
                  RAZIDKOT_CLIENT_READ_RESPONSE, RAZIDKOT_PSA_ERROR_INVALID_SIGNATURE, 0, nothing);
    expect_answer("no key", read_body(1, RAZIDKOT_CLIENT_OPCODE_PSA_DESTROY_KEY, 1140, "", 0),
                  RAZIDKOT_CLIENT_READ_RESPONSE, RAZIDKOT_PSA_ERROR_DOES_NOT_EXIST, 0, nothing);
    expect_answer("unlisted", read_body(1, RAZIDKOT_CLIENT_OPCODE_PSA_IMPORT_KEY, 0xFFFE, "", 0),
                  RAZIDKOT_CLIENT_READ_RESPONSE, 0xFFFE, 0, nothing);
    expect_answer("a body on it", read_body(1, RAZIDKOT_CLIENT_OPCODE_PSA_IMPORT_KEY, 0xFFFE, "\x08\x01", 2),
                  RAZIDKOT_CLIENT_READ_UNREADABLE_BODY, 0, 2, nothing);
    expect_answer("another's", read_body(0, RAZIDKOT_CLIENT_OPCODE_PSA_IMPORT_KEY, 0, "", 0),
                  RAZIDKOT_CLIENT_READ_NOT_ITS_REQUESTS, 0, 0, nothing);
}

static void expect_lists(void)
{
    uint32_t entries[] = {7, 7, 7, 7};
    razidkot_client_output list = read_body(0, RAZIDKOT_CLIENT_OPCODE_LIST_PROVIDERS, 0, "\x0A\x02\x00\x01", 4).output;
    expect("providers", list.kind, RAZIDKOT_CLIENT_OUTPUT_PROVIDERS);
    expect("both", razidkot_client_read_list(P, state + list.start, list.length, entries, 4), 2);
    expect("core", entries[0], RAZIDKOT_CLIENT_PROVIDER_CORE);
    expect("keystore", entries[1], RAZIDKOT_CLIENT_PROVIDER_KEYSTORE);
    expect("the room past them", entries[2], 7);
    list = read_body(0, RAZIDKOT_CLIENT_OPCODE_LIST_OPCODES, 0, "\x0A\x04\x03\x06\xAC\x02", 6).output;
    expect("opcodes", list.kind, RAZIDKOT_CLIENT_OUTPUT_OPCODES);
    expect("its length", list.length, 4);
    expect("three", razidkot_client_read_list(P, state + list.start, list.length, entries, 4), 3);
    expect("the third", entries[2], 300);
    expect("room for two", razidkot_client_read_list(P, state + list.start, list.length, entries, 2), 2);
    expect("no room", razidkot_client_read_list(P, state + list.start, list.length, NULL, 0), 0);
    expect("no list", razidkot_client_read_list(P, NULL, 0, entries, 4), 0);
    expect("a cut one", razidkot_client_read_list(P, (const uint8_t *)"\x05\x80", 2, entries, 4), 1);
}

/* Outputs of the other format. */
static void expect_tagged(void)
{
    uint32_t entries[] = {7, 7, 7, 7};
    const razidkot_client_output version = output_of(RAZIDKOT_CLIENT_OUTPUT_VERSION, 0xFFFFFFFF, 300, 0, 0);
    const razidkot_client_output exported = output_of(RAZIDKOT_CLIENT_OUTPUT_DATA, 0, 0, 13 + 26 + 3, 3);
    expect_answer("version",
                  read_typed(T, 0, RAZIDKOT_CLIENT_OPCODE_PING, 0,
                             "\x01\x04\x00\xFF\xFF\xFF\xFF\x02\x04\x00\x2C\x01\x00\x00", 14),
                  RAZIDKOT_CLIENT_READ_RESPONSE, RAZIDKOT_SUCCESS, 14, version);
    expect_answer("data", read_typed(T, 1, RAZIDKOT_CLIENT_OPCODE_PSA_EXPORT_PUBLIC_KEY, 0, "\x01\x03\x00xyz", 6),
                  RAZIDKOT_CLIENT_READ_RESPONSE, RAZIDKOT_SUCCESS, 6, exported);
    expect_answer("an offset",
                  read_typed(T, 1, RAZIDKOT_CLIENT_OPCODE_PSA_IMPORT_KEY, 7, "\x01\x04\x00\x0C\x00\x00\x00", 7),
                  RAZIDKOT_CLIENT_READ_RESPONSE, RAZIDKOT_DESERIALIZING_BODY_FAILED, 7, offset_of(12));
    expect_answer("no zero", read_typed(T, 1, RAZIDKOT_CLIENT_OPCODE_PSA_IMPORT_KEY, 7, "\x01\x04\x00\x00\x00\x00\x00", 7),
                  RAZIDKOT_CLIENT_READ_UNREADABLE_BODY, 0, 7, output_of(RAZIDKOT_CLIENT_OUTPUT_NOTHING, 0, 0, 0, 0));
    const razidkot_client_output list =
        read_typed(T, 0, RAZIDKOT_CLIENT_OPCODE_LIST_OPCODES, 0, "\x01\x08\x00\x00\x00\x00\x00\x2C\x01\x00\x00", 11).output;
    expect("its length", list.length, 8);
    expect("two", razidkot_client_read_list(T, state + list.start, list.length, entries, 4), 2);
    expect("the first", entries[0], 0);
    expect("the second", entries[1], 300);
    expect("the room past them", entries[2], 7);
    expect("a cut one", razidkot_client_read_list(T, state + list.start, list.length - 1, entries, 4), 1);
    expect("fresh", razidkot_client_begin(state, SIZE, RAZIDKOT_CLIENT_OPCODE_PING, session, T), RAZIDKOT_CLIENT_BEGIN_FRESH);
    const uint8_t header[26] = {0x10, 0xA7, 0xC0, 0x5E, 20, 0, 1, 0, 0, 8, 7, 6, 5, 4, 3, 2, 1, P, 0, 0, 0, 0, 1, 0, 0, 0};
    expect("the other type", razidkot_client_read(state, SIZE, header, sizeof header).code,
           RAZIDKOT_CLIENT_READ_WRONG_CONTENT_TYPE);
}

int main(void)
{
    expect_requests();
    expect_formats();
    expect_write_refusals();
    expect_verify_refusals();
    expect_states();
    expect_outputs();
    expect_offsets();
    expect_lists();
    expect_tagged();
    return failed;
}
