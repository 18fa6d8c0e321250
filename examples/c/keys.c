/*
 * Embeds the key service in a C program: loads a roster, opens a connection, sends a Ping, an Import and two Exports in
 * chunks, one of a key that was imported and one of a key in the list, and prints what came back. Then it starts again
 * from its journal, and exports the imported key once more.
 *
 *   ./prove abi
 *   cc -std=c99 -Iinclude -o keys examples/c/keys.c target/staticlib/libabi.a
 */
#include "razidkot.h"

#include <inttypes.h>
#include <stdio.h>
#include <stdlib.h>
#include <string.h>

/* One record: tag 1, the length in two bytes, the name. */
static const uint8_t roster[] = {0x01, 7, 0, 's', 'c', 'a', 'n', 'n', 'e', 'r'};

/* The keys that every application has: the name of each (tag 1), then its data (tag 2). */
static const uint8_t list[] = {0x01, 7, 0, 'r', 'e', 'l', 'e', 'a', 's', 'e', 0x02, 2, 0, 0xCC, 0xDD};

/* Four requests: magic, H, version and provider, session, types, content length, auth length, opcode, body, auth. */
static const uint8_t stream[] = {
    /* Ping, with auth type 0. */
    0x10, 0xA7, 0xC0, 0x5E, 22, 0, 1, 0, 0, 0, 0, 0, 0, 0, 0, 0, 0, 1, 1, 0, 0, 0, 0, 0, 0, 0, 1, 0,
    /* Import from scanner: the key "a", data AA BB, 2,048 bits, export allowed. */
    0x10, 0xA7, 0xC0, 0x5E, 22, 0, 1, 0, 1, 0, 0, 0, 0, 0, 0, 0, 0, 1, 1, 1, 12, 0, 0, 0, 7, 0, 6, 0,
    0x0A, 0x01, 'a', 0x12, 0x02, 0xAA, 0xBB, 0x18, 0x80, 0x10, 0x20, 0x01, 's', 'c', 'a', 'n', 'n', 'e', 'r',
    /* Export from scanner: the key "a". */
    0x10, 0xA7, 0xC0, 0x5E, 22, 0, 1, 0, 1, 0, 0, 0, 0, 0, 0, 0, 0, 1, 1, 1, 3, 0, 0, 0, 7, 0, 7, 0,
    0x0A, 0x01, 'a', 's', 'c', 'a', 'n', 'n', 'e', 'r',
    /* Export from scanner: the key "release", which it has not imported. */
    0x10, 0xA7, 0xC0, 0x5E, 22, 0, 1, 0, 1, 0, 0, 0, 0, 0, 0, 0, 0, 1, 1, 1, 9, 0, 0, 0, 7, 0, 7, 0,
    0x0A, 0x07, 'r', 'e', 'l', 'e', 'a', 's', 'e', 's', 'c', 'a', 'n', 'n', 'e', 'r'};

static uint8_t registry[RAZIDKOT_REGISTRY_SIZE];
static uint8_t connection[RAZIDKOT_CONNECTION_SIZE];
static uint8_t response[RAZIDKOT_LEAST_RESPONSE_BUFFER];
static uint8_t journal[RAZIDKOT_LEAST_JOURNAL_BUFFER];
static razidkot_counters counters;

/* The third request of the stream. */
enum { EXPORT_AT = 75, EXPORT_LENGTH = 38 };

/* Stands for a file on disk. */
static uint8_t file[RAZIDKOT_LONGEST_RECORD];
static size_t file_length;

/* Appends a record to the file. A real host syncs the file too, and comes back when the record is on disk. */
static int put_on_disk(const uint8_t *record, size_t length)
{
    if (length > sizeof file - file_length)
        return 0;
    memcpy(file + file_length, record, length);
    file_length += length;
    return 1;
}

static void print_response(size_t length)
{
    printf("opcode %d status %d body", response[22] | response[23] << 8, response[24] | response[25] << 8);
    for (size_t at = 26; at < length; at++)
        printf(" %02X", response[at]);
    printf("\n");
}

/*
 * Hands over one chunk, again and again while some of it is left. Returns the code of the last call. A record is on disk
 * before its response is shown; where it can't be put there, the program ends without an answer.
 */
static uint32_t send_chunk(const uint8_t *chunk, size_t length)
{
    while (length > 0) {
        razidkot_answer answer = razidkot_call(chunk, length, connection, sizeof connection, registry, sizeof registry,
                                               list, sizeof list, &counters, response, sizeof response,
                                               journal, sizeof journal);
        if (answer.code != RAZIDKOT_CALL_TAKEN)
            return answer.code;
        if (!put_on_disk(journal, answer.recorded))
            exit(1);
        if (answer.written > 0)
            print_response(answer.written);
        chunk += answer.taken;
        length -= answer.taken;
    }
    return RAZIDKOT_CALL_TAKEN;
}

/* The roster's registry with the keys of the file, a fresh connection, and all counters 0. */
static int start(void)
{
    static uint8_t state[RAZIDKOT_JOURNAL_STATE_SIZE];
    uint32_t code = razidkot_load_roster(roster, sizeof roster, registry, sizeof registry);
    if (code != RAZIDKOT_ROSTER_LOADED) {
        printf("roster R%" PRIu32 "\n", code - 1);
        return 0;
    }
    if (razidkot_journal_begin(state, sizeof state) != RAZIDKOT_JOURNAL_BEGUN)
        return 0;
    razidkot_journal_answer restored = razidkot_journal_read(state, sizeof state, registry, sizeof registry, file,
                                                             file_length);
    if (restored.code != RAZIDKOT_JOURNAL_AT_RECORD && restored.code != RAZIDKOT_JOURNAL_WITHIN_RECORD) {
        printf("journal J%" PRIu32 " at byte %" PRIu64 "\n", restored.code, restored.kept);
        return 0;
    }
    printf("restored from %" PRIu64 " bytes of %zu\n", restored.kept, file_length);
    /* A record that was cut would make all behind it unreadable. */
    file_length = (size_t)restored.kept;
    razidkot_clear_counters(&counters);
    return razidkot_open_connection(connection, sizeof connection) == RAZIDKOT_OPEN_FRESH;
}

int main(void)
{
    if (!start())
        return 1;

    /* A transport cuts where it likes: chunks of 40 bytes, so that requests lie across them. */
    for (size_t at = 0; at < sizeof stream; at += 40) {
        size_t length = sizeof stream - at < 40 ? sizeof stream - at : 40;
        uint32_t code = send_chunk(stream + at, length);
        if (code != RAZIDKOT_CALL_TAKEN) {
            printf("call not taken: C%" PRIu32 "\n", code);
            return 1;
        }
    }
    printf("taken %" PRIu64 " answered %" PRIu64 "\n", counters.taken, counters.answered);
    printf("served scanner %" PRIu64 " unauthenticated %" PRIu64 "\n", counters.served[0], counters.unauthenticated);

    /* A buffer that is too small: nothing is taken. */
    razidkot_answer refused = razidkot_call(stream, sizeof stream, connection, sizeof connection, registry,
                                            sizeof registry, list, sizeof list, &counters, NULL, 0,
                                            journal, sizeof journal);
    printf("without a buffer C%" PRIu32 " taken %zu\n", refused.code, refused.taken);
    /* A list without its last byte. */
    refused = razidkot_call(stream, sizeof stream, connection, sizeof connection, registry, sizeof registry,
                            list, sizeof list - 1, &counters, response, sizeof response, journal, sizeof journal);
    printf("with a cut list C%" PRIu32 " taken %zu\n", refused.code, refused.taken);

    /* The lights go out: all memory is lost, and within the next record's bytes the file ends. */
    file_length += 3;
    return start() && send_chunk(stream + EXPORT_AT, EXPORT_LENGTH) == RAZIDKOT_CALL_TAKEN ? 0 : 1;
}
