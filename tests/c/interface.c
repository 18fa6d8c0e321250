/* include/razidkot.h holds of the archive: the layouts of its structs, and what it says of empty and short memory. */
#include "razidkot.h"

#include <stdio.h>
#include <string.h>

static uint8_t registry[RAZIDKOT_REGISTRY_SIZE];
static uint8_t connection[RAZIDKOT_CONNECTION_SIZE];
static uint8_t response[RAZIDKOT_LEAST_RESPONSE_BUFFER];
static uint8_t journal[RAZIDKOT_LEAST_JOURNAL_BUFFER];
static uint8_t chunk[RAZIDKOT_LONGEST_CHUNK + 1];
static razidkot_counters counters;
/* A key of one byte. */
static const uint8_t list[] = {1, 1, 0, 'k', 2, 1, 0, 0xDD};
static int failed;

static void expect(const char *what, uint64_t is, uint64_t expected)
{
    if (is != expected) {
        printf("%s: %llu, expected %llu\n", what, (unsigned long long)is, (unsigned long long)expected);
        failed = 1;
    }
}

/* A call's answer is this, and there is no record. */
static void expect_answer(const char *what, razidkot_answer answer, uint32_t code, size_t taken, size_t written)
{
    expect(what, answer.code, code);
    expect(what, answer.taken, taken);
    expect(what, answer.written, written);
    expect(what, answer.recorded, 0);
}

static void expect_layouts(void)
{
    expect("size of the counters", sizeof(razidkot_counters), 31 * 8);
    expect("refused", offsetof(razidkot_counters, refused), 12 * 8);
    expect("size of an answer", sizeof(razidkot_answer), 32);
    expect("recorded", offsetof(razidkot_answer, recorded), 24);
    expect("size of a journal's answer", sizeof(razidkot_journal_answer), 24);
    expect("kept", offsetof(razidkot_journal_answer, kept), 16);
    expect("size of an audit", sizeof(razidkot_audit), 32 + sizeof(razidkot_counters));
    expect("wrong", offsetof(razidkot_audit, wrong), 24);
    expect("size of what a step says", sizeof(razidkot_audited), 24 + sizeof(razidkot_audit));
    expect("size of a verdict", sizeof(razidkot_verdict), 24);
    memset(&counters, 0xEE, sizeof counters);
    razidkot_clear_counters(&counters);
    for (size_t at = 0; at < sizeof counters; at++)
        expect("a cleared counter", ((uint8_t *)&counters)[at], 0);
}

static void expect_rosters(void)
{
    const uint8_t bad[] = {2, 0, 0};
    expect("R0", razidkot_load_roster(NULL, 0, NULL, 0), RAZIDKOT_ROSTER_WRONG_MEMORY_SIZE);
    expect("R0", razidkot_load_roster(NULL, 0, registry, sizeof registry - 1), RAZIDKOT_ROSTER_WRONG_MEMORY_SIZE);
    expect("R1", razidkot_load_roster(bad, 2, registry, sizeof registry), RAZIDKOT_ROSTER_CUT_RECORD);
    expect("R2", razidkot_load_roster(bad, 3, registry, sizeof registry), RAZIDKOT_ROSTER_UNKNOWN_TAG);
    expect("no file", razidkot_load_roster(NULL, 0, registry, sizeof registry), RAZIDKOT_ROSTER_LOADED);
}

static void expect_connections(void)
{
    expect("no memory", razidkot_open_connection(NULL, 0), RAZIDKOT_OPEN_WRONG_SIZE);
    expect("short", razidkot_open_connection(connection, sizeof connection - 1), RAZIDKOT_OPEN_WRONG_SIZE);
    expect("fresh", razidkot_open_connection(connection, sizeof connection), RAZIDKOT_OPEN_FRESH);
}

/* A call on connection, registry and counters, with a list and a response buffer of these lengths. */
static razidkot_answer call(size_t length, size_t c, size_t g, size_t l, size_t r, size_t j)
{
    return razidkot_call(length ? chunk : NULL, length, c ? connection : NULL, c, g ? registry : NULL, g,
                         l ? list : NULL, l, &counters, r ? response : NULL, r, j ? journal : NULL, j);
}

static void expect_calls(void)
{
    const size_t c = sizeof connection, g = sizeof registry, r = sizeof response, l = sizeof list, j = sizeof journal;
    expect_answer("empty", call(0, c, g, 0, r, j), 0, 0, 0);
    expect_answer("a list", call(0, c, g, l, r, j), 0, 0, 0);
    expect_answer("C1", call(0, 0, 0, 1, 0, 0), RAZIDKOT_CALL_RESPONSE_BUFFER_TOO_SMALL, 0, 0);
    expect_answer("C1", call(9, c, g, 0, r - 1, j), RAZIDKOT_CALL_RESPONSE_BUFFER_TOO_SMALL, 0, 0);
    expect_answer("C2", call(sizeof chunk, 0, 0, 1, r, 0), RAZIDKOT_CALL_CHUNK_TOO_LONG, 0, 0);
    expect_answer("C3", call(9, 0, 0, 1, r, 0), RAZIDKOT_CALL_CONNECTION_ILL_FORMED, 0, 0);
    expect_answer("C4", call(9, c, 0, 1, r, 0), RAZIDKOT_CALL_REGISTRY_ILL_FORMED, 0, 0);
    counters.refused[18] = RAZIDKOT_HIGHEST_COUNTER + 1;
    expect_answer("C5", call(9, c, g, 1, r, 0), RAZIDKOT_CALL_COUNTER_TOO_HIGH, 0, 0);
    counters.refused[18] = RAZIDKOT_HIGHEST_COUNTER;
    for (size_t cut = 1; cut < l; cut++)
        expect_answer("C6", call(9, c, g, cut, r, 0), RAZIDKOT_CALL_LIST_ILL_FORMED, 0, 0);
    expect_answer("C7", call(0, c, g, l, r, 0), RAZIDKOT_CALL_JOURNAL_BUFFER_TOO_SMALL, 0, 0);
    expect_answer("C7", call(9, c, g, l, r, j - 1), RAZIDKOT_CALL_JOURNAL_BUFFER_TOO_SMALL, 0, 0);
    /* Nine zeros: a bad start, and status 17 at the sixth. */
    expect_answer("taken", call(9, c, g, l, r, j), RAZIDKOT_CALL_TAKEN, 6, 26);
    expect("status 17", response[24], RAZIDKOT_INVALID_HEADER);
    expect("refused with 17", counters.refused[9], 1);
    expect("taken", counters.taken, 6);
}

/* A journal with one import by the application in line 0: the key "a", data AA BB, 2,048 bits, export allowed. */
static const uint8_t imported[] = {2, 9, 0, 0, 0, 8, 1, 0, 1, 'a', 0xAA, 0xBB, 0xA2, 0x03, 0xE2, 0xED};

static void expect_read(const char *what, razidkot_journal_answer answer, uint32_t code, size_t taken, uint64_t kept)
{
    expect(what, answer.code, code);
    expect(what, answer.taken, taken);
    expect(what, answer.kept, kept);
}

static void expect_journals(void)
{
    static uint8_t state[RAZIDKOT_JOURNAL_STATE_SIZE];
    const uint8_t roster[] = {1, 1, 0, 'b'};
    const size_t s = sizeof state, g = sizeof registry, f = sizeof imported;
    expect("no memory", razidkot_journal_begin(NULL, 0), RAZIDKOT_JOURNAL_WRONG_SIZE);
    expect("short", razidkot_journal_begin(state, s - 1), RAZIDKOT_JOURNAL_WRONG_SIZE);
    expect("a roster", razidkot_load_roster(roster, sizeof roster, registry, g), RAZIDKOT_ROSTER_LOADED);
    expect("begun", razidkot_journal_begin(state, s), RAZIDKOT_JOURNAL_BEGUN);
    expect_read("nothing", razidkot_journal_read(NULL, 0, NULL, 0, NULL, 0), RAZIDKOT_JOURNAL_REGISTRY_ILL_FORMED, 0, 0);
    expect_read("no state", razidkot_journal_read(NULL, 0, registry, g, imported, f),
                RAZIDKOT_JOURNAL_STATE_ILL_FORMED, 0, 0);
    expect_read("empty", razidkot_journal_read(state, s, registry, g, NULL, 0), RAZIDKOT_JOURNAL_AT_RECORD, 0, 0);
    expect_read("cut", razidkot_journal_read(state, s, registry, g, imported, 5), RAZIDKOT_JOURNAL_WITHIN_RECORD, 5, 0);
    expect_read("whole", razidkot_journal_read(state, s, registry, g, imported + 5, f - 5), RAZIDKOT_JOURNAL_AT_RECORD,
                f - 5, f);
    expect("imported", registry[65], 1);
    expect_read("J3", razidkot_journal_read(state, s, registry, g, imported, f), RAZIDKOT_JOURNAL_NOT_ALLOWED, f, f);
    expect_read("refused for good", razidkot_journal_read(state, s, registry, g, imported, f),
                RAZIDKOT_JOURNAL_NOT_ALLOWED, 0, f);
    expect("begun again", razidkot_journal_begin(state, s), RAZIDKOT_JOURNAL_BEGUN);
    expect_read("J1", razidkot_journal_read(state, s, registry, g, chunk, 7), RAZIDKOT_JOURNAL_WRONG_CRC, 7, 0);
    expect("no names", razidkot_load_roster(NULL, 0, registry, g), RAZIDKOT_ROSTER_LOADED);
}

static void expect_bills(void)
{
    static uint8_t out[RAZIDKOT_LEAST_BILL_BUFFER];
    const size_t c = sizeof connection, g = sizeof registry;
    expect("no buffer", razidkot_bill(NULL, 0, &counters, registry, g, connection, c).code, 1);
    expect("short", razidkot_bill(out, sizeof out - 1, &counters, registry, g, connection, c).code, 1);
    expect("no connection", razidkot_bill(out, sizeof out, &counters, registry, g, NULL, 0).code, 2);
    expect("no registry", razidkot_bill(out, sizeof out, &counters, NULL, 0, connection, c).code, 3);
    razidkot_clear_counters(&counters);
    const razidkot_bill_answer bill = razidkot_bill(out, sizeof out, &counters, registry, g, connection, c);
    expect("a bill", bill.code, RAZIDKOT_BILL_WRITTEN);
    expect("its length", bill.written, 32);
    expect("its text", memcmp(out, "taken 0\nopen 0\ndropped 0\nheld 0\n", 32) != 0, 0);
}

/* A step on connection, registry and response buffer, with a pending buffer and a journal buffer of these lengths. */
static razidkot_audited step(razidkot_audit audit, size_t requests, const uint8_t *responses, size_t length, bool is_last,
                             size_t p, size_t j)
{
    return razidkot_audit_step(audit, requests ? chunk : NULL, requests, responses, length, is_last, connection,
                               sizeof connection, registry, sizeof registry, list, sizeof list, p ? response : NULL, p,
                               j ? journal : NULL, j);
}

static void expect_step(const char *what, razidkot_audited said, uint32_t code, size_t requests, size_t responses)
{
    expect(what, said.code, code);
    expect(what, said.requests, requests);
    expect(what, said.responses, responses);
}

static void expect_verdict(const char *what, razidkot_verdict verdict, uint32_t code, uint64_t number, size_t byte)
{
    expect(what, verdict.code, code);
    expect(what, verdict.response, number);
    expect(what, verdict.byte, byte);
}

/* Nine zeros, and the response to them that was captured in `captured`: status 17. */
static void expect_audits(void)
{
    static uint8_t captured[26];
    const size_t r = sizeof response, j = sizeof journal;
    memcpy(captured, response, sizeof captured);
    expect("fresh", razidkot_open_connection(connection, sizeof connection), RAZIDKOT_OPEN_FRESH);
    const razidkot_audit begun = razidkot_audit_begin();
    expect("number", begun.number, 0);
    expect("refused", begun.counters.refused[18], 0);
    expect_verdict("nothing", razidkot_audit_end(begun, NULL, 0, NULL, 0), RAZIDKOT_VERDICT_ACCEPTED, 0, 0);
    expect_verdict("runs on", razidkot_audit_end(begun, NULL, 0, captured, 1), RAZIDKOT_VERDICT_WRONG, 1, 0);
    expect_step("C1", step(begun, 9, captured, 26, true, 0, j), RAZIDKOT_CALL_RESPONSE_BUFFER_TOO_SMALL, 0, 0);
    expect_step("C7", step(begun, 9, captured, 26, true, r, 0), RAZIDKOT_CALL_JOURNAL_BUFFER_TOO_SMALL, 0, 0);
    razidkot_audit bad = begun;
    bad.place = 1;
    expect_step("ill formed", step(bad, 9, captured, 26, true, r, j), RAZIDKOT_AUDIT_ILL_FORMED, 0, 0);
    expect_verdict("ill formed", razidkot_audit_end(bad, response, r, NULL, 0), RAZIDKOT_AUDIT_ILL_FORMED, 0, 0);
    const razidkot_audited called = step(begun, 9, captured, 26, false, r, j);
    expect_step("a call", called, 0, 6, 0);
    expect("number", called.audit.number, 1);
    expect("taken", called.audit.counters.taken, 6);
    expect_verdict("none captured", razidkot_audit_end(called.audit, response, r, NULL, 0), RAZIDKOT_VERDICT_WRONG, 1, 0);
    const razidkot_audited half = step(called.audit, 9, captured, 13, false, r, j);
    expect_step("half", half, 0, 0, 13);
    const razidkot_audited whole = step(half.audit, 9, captured + 13, 13, true, r, j);
    expect_step("whole", whole, 0, 0, 13);
    expect("not wrong", whole.audit.wrong, 0);
    const razidkot_audited dropped = step(whole.audit, 3, NULL, 0, true, r, j);
    expect_step("dropped", dropped, 0, 3, 0);
    expect("dropped", dropped.audit.counters.dropped, 3);
    expect_verdict("accepted", razidkot_audit_end(dropped.audit, response, r, NULL, 0), RAZIDKOT_VERDICT_ACCEPTED, 0, 0);
    captured[24] ^= 1;
    const razidkot_audited wrong = step(called.audit, 9, captured, 26, false, r, j);
    expect_step("wrong", wrong, 0, 0, 24);
    expect("wrong", wrong.audit.wrong, 1);
    expect_verdict("wrong", razidkot_audit_end(wrong.audit, response, r, NULL, 0), RAZIDKOT_VERDICT_WRONG, 1, 24);
}

int main(void)
{
    expect_layouts();
    expect_rosters();
    expect_connections();
    expect_calls();
    expect_audits();
    expect_journals();
    expect_bills();
    return failed;
}
