
/*
 * Goes behind README's C for the service: the host's part, and a main that serves a file and prints the bill. At its end
 * it reads back what stands for the journal's file, and sees that all of it is records.
 */
#include <stdio.h>
#include <stdlib.h>
#include <string.h>

static size_t sent;
static uint8_t file[1 << 16];
static size_t file_length;

bool put_on_disk(const uint8_t *record, size_t length)
{
    if (length > sizeof file - file_length)
        return false;
    memcpy(file + file_length, record, length);
    file_length += length;
    return true;
}

static bool restores(const uint8_t *roster, size_t roster_length)
{
    static uint8_t state[RAZIDKOT_JOURNAL_STATE_SIZE];
    static uint8_t restored[RAZIDKOT_REGISTRY_SIZE];
    if (razidkot_load_roster(roster, roster_length, restored, sizeof restored) != RAZIDKOT_ROSTER_LOADED
        || razidkot_journal_begin(state, sizeof state) != RAZIDKOT_JOURNAL_BEGUN)
        return false;
    razidkot_journal_answer read = razidkot_journal_read(state, sizeof state, restored, sizeof restored, file,
                                                         file_length);
    return read.code == RAZIDKOT_JOURNAL_AT_RECORD && read.kept == file_length;
}

bool send_all(const uint8_t *bytes, size_t length)
{
    (void)bytes;
    sent += length;
    return true;
}

/* All of a file, which has to fit. */
static size_t read_file(const char *name, uint8_t *room, size_t size)
{
    FILE *file = fopen(name, "rb");
    size_t length = file ? fread(room, 1, size, file) : 0;
    if (length == 0 || length == size || fclose(file) != 0) {
        fprintf(stderr, "%s: not read\n", name);
        exit(1);
    }
    return length;
}

static uint8_t bytes[1 << 18];
static uint8_t shipped[1 << 16];
static uint8_t text[RAZIDKOT_LEAST_BILL_BUFFER];

int main(int count, char **words)
{
    size_t length = count == 4 ? read_file(words[1], bytes, sizeof bytes) : 0;
    size_t shipped_length = count == 4 ? read_file(words[3], shipped, sizeof shipped) : 0;
    if (count != 4 || !start(bytes, length, shipped, shipped_length)) {
        fprintf(stderr, "not started\n");
        return 1;
    }
    if (!serve(bytes, read_file(words[2], bytes, sizeof bytes)) || sent == 0) {
        fprintf(stderr, "not served\n");
        return 1;
    }
    razidkot_bill_answer bill = razidkot_bill(text, sizeof text, &counters, registry, sizeof registry,
                                              connection, sizeof connection);
    fwrite(text, 1, bill.written, stdout);
    if (!restores(bytes, read_file(words[1], bytes, sizeof bytes))) {
        fprintf(stderr, "not restored\n");
        return 1;
    }
    return bill.code != 0;
}
