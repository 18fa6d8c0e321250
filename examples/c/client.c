/*
 * A client of the key service in C: lists the providers, imports a key, exports it in both body formats, asks for one that
 * is not there and destroys the first; then it has signatures checked with another. It prints what came back. The service
 * is in the same program and stands for the other end of a socket: send_bytes and receive_bytes are all that a socket
 * would change.
 *
 *   ./prove abi client_abi
 *   cc -std=c99 -Iinclude -o client examples/c/client.c target/staticlib/libclient_abi.a target/staticlib/libabi.a
 */
#include "razidkot.h"
#include "razidkot_client.h"

#include <inttypes.h>
#include <stdio.h>
#include <string.h>

/* ---- The other end: the service, and the responses that are not received yet. */

/* One record: tag 1, the length in two bytes, the name. */
static const uint8_t roster[] = {0x01, 7, 0, 's', 'c', 'a', 'n', 'n', 'e', 'r'};

static uint8_t registry[RAZIDKOT_REGISTRY_SIZE];
static uint8_t connection[RAZIDKOT_CONNECTION_SIZE];
static razidkot_counters counters;
static uint8_t responses[4 * RAZIDKOT_LEAST_RESPONSE_BUFFER];
static size_t responses_length;
/* This service keeps its keys in memory alone, and leaves the records that calls write here. */
static uint8_t journal[RAZIDKOT_LEAST_JOURNAL_BUFFER];

static bool start_service(void)
{
    razidkot_clear_counters(&counters);
    return razidkot_load_roster(roster, sizeof roster, registry, sizeof registry) == RAZIDKOT_ROSTER_LOADED
        && razidkot_open_connection(connection, sizeof connection) == RAZIDKOT_OPEN_FRESH;
}

/* Sends all of the bytes. */
static bool send_bytes(const uint8_t *bytes, size_t length)
{
    while (length > 0) {
        razidkot_answer answer = razidkot_call(bytes, length, connection, sizeof connection, registry, sizeof registry,
                                               NULL, 0, &counters, responses + responses_length,
                                               sizeof responses - responses_length, journal, sizeof journal);
        if (answer.code != RAZIDKOT_CALL_TAKEN)
            return false;
        responses_length += answer.written;
        bytes += answer.taken;
        length -= answer.taken;
    }
    return true;
}

/* Receives at most so many bytes and returns how many; 0 if there are none to come. */
static size_t receive_bytes(uint8_t *bytes, size_t most)
{
    size_t length = responses_length < most ? responses_length : most;
    memcpy(bytes, responses, length);
    responses_length -= length;
    memmove(responses, responses + length, responses_length);
    return length;
}

/* ---- The client. */

static const uint8_t scanner[] = {'s', 'c', 'a', 'n', 'n', 'e', 'r'};
static const uint8_t key_a[] = {'a'};
static const uint8_t key_b[] = {'b'};
static const uint8_t key_data[] = {0xAA, 0xBB};

/* A key whose private half has signed the three bytes "abc": `openssl dgst -sha256 -sign`. */
static const uint8_t key_series[] = {'s', 'e', 'r', 'i', 'e', 's'};
/* DER of its RSAPublicKey, of 2,048 bits: `openssl rsa -RSAPublicKey_out -outform DER`. */
static const uint8_t series_data[] = {
    0x30, 0x82, 0x01, 0x0A, 0x02, 0x82, 0x01, 0x01, 0x00, 0xA9, 0x93, 0xC2, 0x3D, 0x14, 0x25, 0xE1,
    0x6C, 0xC1, 0x14, 0x3A, 0x89, 0x54, 0xDA, 0xEB, 0x01, 0xF1, 0x1F, 0x95, 0xDC, 0xD0, 0x26, 0x47,
    0x53, 0x6E, 0xEC, 0x8C, 0x6E, 0xA1, 0x72, 0x02, 0xE0, 0x0C, 0xF4, 0x8D, 0x06, 0x61, 0x1F, 0x24,
    0x98, 0xFB, 0xD8, 0x41, 0x1B, 0x5C, 0xD4, 0x6A, 0xB8, 0x0A, 0x67, 0x94, 0xE3, 0xDE, 0x9C, 0xDA,
    0xE2, 0x57, 0x04, 0xCA, 0xEE, 0x0C, 0xC6, 0x92, 0xF7, 0x87, 0x0D, 0xD8, 0x2B, 0x2A, 0xDB, 0x84,
    0xF8, 0xAA, 0x6D, 0x76, 0xD9, 0xF1, 0x41, 0x8B, 0x5E, 0xE5, 0xD3, 0x06, 0x85, 0x13, 0x7A, 0xD3,
    0xB6, 0x5D, 0xE0, 0x67, 0x7B, 0xB2, 0x54, 0x96, 0xFA, 0x72, 0x94, 0xB5, 0x5F, 0xD0, 0x28, 0x38,
    0xE1, 0x34, 0x6D, 0x34, 0xCA, 0xF6, 0x17, 0xA0, 0xB4, 0xA4, 0x36, 0x8D, 0x1E, 0xA1, 0xA4, 0xBE,
    0x0D, 0xA0, 0x87, 0xBF, 0x74, 0x37, 0x36, 0x07, 0x3B, 0x5D, 0x51, 0xF6, 0x25, 0x4D, 0xC9, 0x86,
    0x43, 0x3A, 0x16, 0x9A, 0xC2, 0xB1, 0x21, 0x09, 0xB0, 0xAA, 0xA0, 0x10, 0x86, 0x1B, 0xF4, 0xD5,
    0xAD, 0xB1, 0x06, 0x61, 0xBA, 0xAF, 0x96, 0xD6, 0xD5, 0x5A, 0x64, 0x32, 0x27, 0x45, 0x4B, 0xDD,
    0xBD, 0xEE, 0xDC, 0x38, 0x9F, 0xC9, 0x26, 0x2D, 0x04, 0x7F, 0x64, 0x63, 0x5C, 0x97, 0xA6, 0xE2,
    0x04, 0x8A, 0x9E, 0x0F, 0x25, 0x87, 0xA8, 0xA2, 0xC5, 0xFA, 0x7D, 0x60, 0x39, 0x1E, 0x61, 0xB9,
    0xF9, 0x3C, 0x95, 0x1E, 0xD0, 0xD3, 0x73, 0xBB, 0xBA, 0x1A, 0x61, 0x25, 0x23, 0x20, 0x55, 0xC2,
    0x06, 0x8D, 0x4F, 0xBD, 0xC4, 0x51, 0xBE, 0xD3, 0x07, 0xFD, 0x02, 0x0B, 0x81, 0x3F, 0xBA, 0x16,
    0xE8, 0xEC, 0xA7, 0x8F, 0x98, 0x6A, 0x19, 0x31, 0x10, 0x7E, 0xA4, 0xD5, 0xC2, 0x65, 0xBF, 0x01,
    0xCA, 0x4C, 0xB4, 0xBE, 0xE6, 0xCB, 0xB5, 0xB5, 0x8B, 0x02, 0x03, 0x01, 0x00, 0x01};
/* The SHA-256 of "abc". */
static const uint8_t series_hash[RAZIDKOT_CLIENT_HASH_SIZE] = {
    0xBA, 0x78, 0x16, 0xBF, 0x8F, 0x01, 0xCF, 0xEA, 0x41, 0x41, 0x40, 0xDE, 0x5D, 0xAE, 0x22, 0x23,
    0xB0, 0x03, 0x61, 0xA3, 0x96, 0x17, 0x7A, 0x9C, 0xB4, 0x10, 0xFF, 0x61, 0xF2, 0x00, 0x15, 0xAD};
static const uint8_t series_signature[] = {
    0x37, 0x78, 0x6A, 0x4F, 0xE9, 0xA8, 0xB0, 0xDF, 0x5F, 0x85, 0x1D, 0xD6, 0x67, 0x8B, 0x74, 0xF9,
    0xE9, 0x01, 0x81, 0x6C, 0x78, 0x91, 0xB2, 0x36, 0x80, 0x3C, 0x95, 0x10, 0x89, 0xA3, 0x3A, 0xE6,
    0xB8, 0x81, 0xB8, 0xD0, 0xED, 0xF1, 0xC4, 0xDD, 0xD5, 0x68, 0xEF, 0x8F, 0xD5, 0x6F, 0x13, 0x9B,
    0x88, 0x15, 0x45, 0xE0, 0xFF, 0xED, 0x8E, 0xD4, 0x7C, 0x9B, 0x9D, 0x09, 0xB3, 0xA4, 0xC8, 0x8D,
    0x44, 0x31, 0x06, 0x55, 0xD7, 0x05, 0x12, 0x0E, 0xCA, 0xB9, 0xEB, 0x11, 0x37, 0x3C, 0x6D, 0xC7,
    0x9C, 0x9A, 0xC8, 0xFF, 0xD4, 0x48, 0xCD, 0x7A, 0x6C, 0x8E, 0xED, 0xFE, 0xE9, 0x15, 0x58, 0xD7,
    0xE1, 0xB5, 0x33, 0x20, 0x10, 0x20, 0x6C, 0x0D, 0x00, 0x77, 0x26, 0x57, 0xFE, 0x00, 0x46, 0xE7,
    0x0B, 0xF0, 0x9B, 0x33, 0xA9, 0x0E, 0x1A, 0x83, 0xAE, 0x92, 0xA9, 0xC7, 0x79, 0x2A, 0x95, 0x8F,
    0xBD, 0x86, 0x5A, 0xA5, 0x4D, 0x2A, 0xBB, 0x9A, 0x78, 0x73, 0x72, 0x87, 0x2B, 0x3D, 0x26, 0x99,
    0x37, 0x5D, 0xAE, 0x91, 0xA8, 0xE5, 0xAE, 0x33, 0x7E, 0xF6, 0x08, 0xD3, 0x75, 0xCC, 0xF2, 0xA6,
    0x7C, 0xB5, 0x15, 0x3F, 0x2D, 0xE1, 0xDD, 0x88, 0x37, 0x22, 0xA8, 0xAB, 0x2A, 0x2F, 0xFF, 0x1D,
    0xF6, 0xA3, 0xD3, 0x87, 0x46, 0x32, 0x9E, 0x2B, 0x11, 0xA1, 0xE7, 0xE8, 0xC9, 0x5A, 0xD2, 0x40,
    0x6E, 0x08, 0x6D, 0xBE, 0x16, 0x23, 0x5C, 0x9E, 0x11, 0x51, 0x15, 0x08, 0x49, 0xBF, 0xEB, 0xEA,
    0xBA, 0xB3, 0x3D, 0xD5, 0x06, 0x02, 0xA5, 0xC5, 0x84, 0xB0, 0xA0, 0xDC, 0xE4, 0xFD, 0xCA, 0x45,
    0x31, 0x01, 0xAB, 0x17, 0xB1, 0xF8, 0xF3, 0x57, 0xAC, 0xF1, 0xA4, 0x7E, 0x9F, 0x48, 0xE8, 0x79,
    0xC0, 0x57, 0xFF, 0xAF, 0xEE, 0x79, 0xF3, 0x44, 0x0A, 0x54, 0x98, 0x7E, 0xDB, 0xD6, 0x13, 0xFE};
/* The hash of something else. */
static const uint8_t other_hash[RAZIDKOT_CLIENT_HASH_SIZE] = {0};

/* The formats of bodies. Lists are asked for in Protocol Buffers here. */
enum { PROTOBUF = RAZIDKOT_CLIENT_BODY_FORMAT_PROTOBUF, TAGGED = RAZIDKOT_CLIENT_BODY_FORMAT_TAGGED };

static uint8_t request[RAZIDKOT_CLIENT_LEAST_REQUEST_BUFFER];

/* The last chunk; its bytes from `at` to `end` are not taken yet. So small that responses lie across chunks: a socket's
   would have some thousand bytes. */
static uint8_t chunk[7];
static size_t chunk_at, chunk_end;

/* Sends the request that was written, and makes memory the state for its response. */
static bool send_request(razidkot_client_request written, uint16_t opcode, uint64_t session, uint8_t accept_type,
                         uint8_t *state)
{
    if (written.code != RAZIDKOT_CLIENT_WRITE_WRITTEN) {
        printf("request not written, code %" PRIu32 "\n", written.code);
        return false;
    }
    return send_bytes(request, written.written)
        && razidkot_client_begin(state, RAZIDKOT_CLIENT_STATE_SIZE, opcode, session, accept_type)
            == RAZIDKOT_CLIENT_BEGIN_FRESH;
}

/*
 * Reads one response: what is left of the last chunk first, then as many chunks as it takes. What is left of the last of
 * these is the next response's. The code is RAZIDKOT_CLIENT_READ_WAITING only if the other end is gone.
 */
static razidkot_client_answer read_response(uint8_t *state)
{
    for (;;) {
        razidkot_client_answer answer =
            razidkot_client_read(state, RAZIDKOT_CLIENT_STATE_SIZE, chunk + chunk_at, chunk_end - chunk_at);
        chunk_at += answer.taken;
        if (answer.code != RAZIDKOT_CLIENT_READ_WAITING)
            return answer;
        chunk_at = 0;
        chunk_end = receive_bytes(chunk, sizeof chunk);
        if (chunk_end == 0)
            return answer;
    }
}

static void print_list(const char *what, const uint8_t *packed, size_t length)
{
    static uint32_t entries[RAZIDKOT_CLIENT_MOST_ENTRIES];
    size_t count = razidkot_client_read_list(PROTOBUF, packed, length, entries, RAZIDKOT_CLIENT_MOST_ENTRIES);
    printf(", %s", what);
    for (size_t at = 0; at < count; at++)
        printf(" %" PRIu32, entries[at]);
}

/* What a response carries lies in its state's memory. */
static void print_output(razidkot_client_output output, const uint8_t *state)
{
    const uint8_t *place = state + output.start;
    switch (output.kind) {
    case RAZIDKOT_CLIENT_OUTPUT_VERSION:
        printf(", version %" PRIu32 ".%" PRIu32, output.major, output.minor);
        break;
    case RAZIDKOT_CLIENT_OUTPUT_PROVIDERS:
        print_list("providers", place, output.length);
        break;
    case RAZIDKOT_CLIENT_OUTPUT_OPCODES:
        print_list("opcodes", place, output.length);
        break;
    case RAZIDKOT_CLIENT_OUTPUT_DATA:
        printf(", data");
        for (size_t at = 0; at < output.length; at++)
            printf(" %02X", place[at]);
        break;
    case RAZIDKOT_CLIENT_OUTPUT_OFFSET: /* of status 7: where the service couldn't read the request's body */
        printf(", byte %" PRIu32 " of the body", output.offset);
        break;
    default: /* RAZIDKOT_CLIENT_OUTPUT_NOTHING */
        break;
    }
}

/* Reads a response and prints it. After a refusal it is not known where the next one begins: the connection is at its
   end. */
static bool print_response(const char *what, uint8_t *state)
{
    razidkot_client_answer answer = read_response(state);
    if (answer.code != RAZIDKOT_CLIENT_READ_RESPONSE) {
        printf("%s: response not read, code %" PRIu32 "\n", what, answer.code);
        return false;
    }
    printf("%s: status %" PRIu32, what, answer.status);
    print_output(answer.output, state);
    printf("\n");
    return true;
}

static uint8_t first[RAZIDKOT_CLIENT_STATE_SIZE];
static uint8_t second[RAZIDKOT_CLIENT_STATE_SIZE];

/* A session of its own for each request, so that no response is taken for another's. */
static bool list_providers(void)
{
    razidkot_client_request written =
        razidkot_client_write_list_providers(request, sizeof request, 1, PROTOBUF, PROTOBUF, false, NULL, 0);
    return send_request(written, RAZIDKOT_CLIENT_OPCODE_LIST_PROVIDERS, 1, PROTOBUF, first)
        && print_response("list providers", first);
}

static razidkot_client_request write_import(uint64_t session, uint32_t bits)
{
    return razidkot_client_write_import(request, sizeof request, session, PROTOBUF, PROTOBUF, true, scanner, sizeof scanner,
                                        key_a, sizeof key_a, key_data, sizeof key_data, bits, true, false);
}

static bool import_key(void)
{
    /* What is outside the bounds is refused before a byte is sent. */
    if (write_import(2, 2050).code == RAZIDKOT_CLIENT_WRITE_BITS_ILLEGAL)
        printf("import of 2050 bits: request not written: the key's bits\n");
    return send_request(write_import(3, 2048), RAZIDKOT_CLIENT_OPCODE_PSA_IMPORT_KEY, 3, PROTOBUF, first)
        && print_response("import a", first);
}

/* The same in either format: the request's body has it, and the response's. */
static bool export_key(const char *what, uint64_t session, uint8_t format)
{
    razidkot_client_request written = razidkot_client_write_export(
        request, sizeof request, session, format, format, true, scanner, sizeof scanner, key_a, sizeof key_a);
    return send_request(written, RAZIDKOT_CLIENT_OPCODE_PSA_EXPORT_PUBLIC_KEY, session, format, first)
        && print_response(what, first);
}

/* Two requests sent before a response is read: a state for each, in the same order. */
static bool export_and_destroy(void)
{
    razidkot_client_request written = razidkot_client_write_export(
        request, sizeof request, 5, PROTOBUF, PROTOBUF, true, scanner, sizeof scanner, key_b, sizeof key_b);
    if (!send_request(written, RAZIDKOT_CLIENT_OPCODE_PSA_EXPORT_PUBLIC_KEY, 5, PROTOBUF, first))
        return false;
    written = razidkot_client_write_destroy(
        request, sizeof request, 6, PROTOBUF, PROTOBUF, true, scanner, sizeof scanner, key_a, sizeof key_a);
    return send_request(written, RAZIDKOT_CLIENT_OPCODE_PSA_DESTROY_KEY, 6, PROTOBUF, second)
        && print_response("export b", first)
        && print_response("destroy a", second);
}

static bool import_series(void)
{
    razidkot_client_request written = razidkot_client_write_import(
        request, sizeof request, 7, PROTOBUF, PROTOBUF, true, scanner, sizeof scanner, key_series, sizeof key_series,
        series_data, sizeof series_data, 2048, false, true);
    return send_request(written, RAZIDKOT_CLIENT_OPCODE_PSA_IMPORT_KEY, 7, PROTOBUF, first)
        && print_response("import series", first);
}

/* The status says what the signature is worth: 0 good, 1149 bad, and any other that it was not checked. */
static bool verify_with(const char *what, uint64_t session, const uint8_t *name, size_t name_length,
                        const uint8_t *hash)
{
    razidkot_client_request written = razidkot_client_write_verify(
        request, sizeof request, session, PROTOBUF, PROTOBUF, true, scanner, sizeof scanner, name, name_length,
        hash, RAZIDKOT_CLIENT_HASH_SIZE, series_signature, sizeof series_signature);
    return send_request(written, RAZIDKOT_CLIENT_OPCODE_PSA_ASYMMETRIC_VERIFY, session, PROTOBUF, first)
        && print_response(what, first);
}

static bool verify_series(void)
{
    return import_series()
        && verify_with("verify abc", 8, key_series, sizeof key_series, series_hash)
        && verify_with("verify something else", 9, key_series, sizeof key_series, other_hash)
        && verify_with("verify with b", 10, key_b, sizeof key_b, series_hash);
}

int main(void)
{
    bool done = start_service() && list_providers() && import_key() && export_key("export a", 4, PROTOBUF)
        && export_key("export a in format 2", 11, TAGGED) && export_and_destroy() && verify_series();
    return done ? 0 : 1;
}
