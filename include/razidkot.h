/*
 * The key service for C: target/staticlib/libabi.a, which `./prove abi` writes (x86-64, System V).
 * The archive allocates nothing, keeps nothing between calls and needs no library but C's. All memory is the caller's.
 * docs/LAYOUT.md has the layouts of registry and connection memory, of the list, and of the journal and its reader's
 * state; document 01 is the requirements paper, document 02 the requests after it.
 *
 * Memory is handed over as a pointer and a length in bytes. Every function is defined for any bytes and any lengths:
 *
 *   - Short or long memory is answered: a registry, connection or journal state of a wrong size, a response buffer
 *     below RAZIDKOT_LEAST_RESPONSE_BUFFER, a journal buffer below RAZIDKOT_LEAST_JOURNAL_BUFFER, a chunk above
 *     RAZIDKOT_LONGEST_CHUNK, a buffer for the bill below RAZIDKOT_LEAST_BILL_BUFFER.
 *   - NULL with length 0 is empty memory and is answered as such: an empty roster file, list or chunk, which are good;
 *     a registry, connection or journal state of a wrong size; a buffer for a response, for a record or for the bill
 *     that is too small.
 *   - Ill-formed memory of the right size, and an ill-formed list, are answered: RAZIDKOT_CALL_CONNECTION_ILL_FORMED,
 *     RAZIDKOT_CALL_REGISTRY_ILL_FORMED, RAZIDKOT_CALL_LIST_ILL_FORMED, RAZIDKOT_JOURNAL_REGISTRY_ILL_FORMED,
 *     RAZIDKOT_JOURNAL_STATE_ILL_FORMED, RAZIDKOT_BILL_CONNECTION_ILL_FORMED, RAZIDKOT_BILL_REGISTRY_ILL_FORMED.
 *   - An audit of any numbers is answered, an ill-formed one by RAZIDKOT_AUDIT_ILL_FORMED.
 *
 * What it can't tell, and what is undefined:
 *
 *   - NULL, or any other pointer that is not valid, with a length above 0.
 *   - A length above that of the memory behind the pointer.
 *   - Memory that the call writes and that overlaps other memory of the same call.
 *   - NULL, or a pointer that is not aligned for uint64_t, for the counters.
 *
 * Threads: the functions share no memory, so calls on different memory may run at the same time. Registry, connection,
 * counters, response buffer, journal buffer and journal state may each be in one call at a time, and nothing else may
 * read or write them meanwhile.
 * Connections that share a registry or counters therefore take turns. Chunk and list are only read: calls at the same
 * time may share them.
 */
#ifndef RAZIDKOT_H
#define RAZIDKOT_H

#include "razidkot_status.h"

#include <stdbool.h>
#include <stddef.h>
#include <stdint.h>

#ifdef __cplusplus
extern "C" {
#endif

/* The one size of registry memory. */
#define RAZIDKOT_REGISTRY_SIZE 41672
/* The one size of connection memory. */
#define RAZIDKOT_CONNECTION_SIZE 4431
/* A shorter response buffer is refused. */
#define RAZIDKOT_LEAST_RESPONSE_BUFFER 1024
/* A shorter journal buffer is refused. */
#define RAZIDKOT_LEAST_JOURNAL_BUFFER 1024
/* A longer chunk is refused. */
#define RAZIDKOT_LONGEST_CHUNK 65536
/* No response is longer. */
#define RAZIDKOT_LONGEST_RESPONSE 629
/* No record of the journal is longer. */
#define RAZIDKOT_LONGEST_RECORD 645
/* The one size of the memory of a journal's reader. */
#define RAZIDKOT_JOURNAL_STATE_SIZE 662
/* A shorter buffer gets no bill; no bill is longer. */
#define RAZIDKOT_LEAST_BILL_BUFFER 6336
/* 2^62: a call is refused if any counter is above it. */
#define RAZIDKOT_HIGHEST_COUNTER (UINT64_C(1) << 62)

/* How many keys a list of shipped keys may have. */
#define RAZIDKOT_MOST_LISTED_KEYS 64
/* No good list is longer. */
#define RAZIDKOT_LONGEST_LIST 40832

/* How many applications a roster may have. */
#define RAZIDKOT_LINES 8
/* How many statuses a request may be refused with. */
#define RAZIDKOT_REFUSED_STATUSES 19

/* The counters, which a call changes in place. A call with one above RAZIDKOT_HIGHEST_COUNTER is refused (C5). */
typedef struct {
    /* Bytes taken. */
    uint64_t taken;
    /* Bytes of answered requests. */
    uint64_t answered;
    /* Bytes dropped on a closed connection. */
    uint64_t dropped;
    /* Requests served, for each line of the roster: the applications in the order of the file. */
    uint64_t served[RAZIDKOT_LINES];
    /* Requests served with auth type 0. */
    uint64_t unauthenticated;
    /*
     * Requests refused, for each status but 0, ascending:
     *
     *   index   0  1  2  3  4  5  6   7   8   9  10  11    12    13    14    15    16    17    18
     *   status  1  2  3  4  6  7  9  11  12  17  19  20  1133  1134  1135  1139  1140  1142  1149
     */
    uint64_t refused[RAZIDKOT_REFUSED_STATUSES];
} razidkot_counters;

/* What razidkot_load_roster says: 0, or 1 more than the digit of document 01's R0 to R5. */
enum razidkot_roster_code {
    /* The registry has the file's names and no keys. */
    RAZIDKOT_ROSTER_LOADED = 0,
    /* R0: the registry memory does not have RAZIDKOT_REGISTRY_SIZE bytes. Said before any record is read. */
    RAZIDKOT_ROSTER_WRONG_MEMORY_SIZE = 1,
    /* R1: a record is cut, within its tag and length or within its value. */
    RAZIDKOT_ROSTER_CUT_RECORD = 2,
    /* R2: a tag other than 1. */
    RAZIDKOT_ROSTER_UNKNOWN_TAG = 3,
    /* R3: a name not of 1 to 64 bytes, or with a byte outside 0x21 to 0x7E. */
    RAZIDKOT_ROSTER_BAD_NAME = 4,
    /* R4: a ninth name. */
    RAZIDKOT_ROSTER_NINTH_NAME = 5,
    /* R5: a name seen before. */
    RAZIDKOT_ROSTER_REPEATED_NAME = 6
};

/* What razidkot_open_connection says. */
enum razidkot_open_code {
    /* The connection is open and holds nothing: all its bytes are 0. */
    RAZIDKOT_OPEN_FRESH = 0,
    /* The memory does not have RAZIDKOT_CONNECTION_SIZE bytes. */
    RAZIDKOT_OPEN_WRONG_SIZE = 1
};

/* What razidkot_call says: 0, or the digit of the papers' C1 to C7. The first that applies, in this order. */
enum razidkot_call_code {
    RAZIDKOT_CALL_TAKEN = 0,
    /* C1: the response buffer has fewer than RAZIDKOT_LEAST_RESPONSE_BUFFER bytes. */
    RAZIDKOT_CALL_RESPONSE_BUFFER_TOO_SMALL = 1,
    /* C2: the chunk has more than RAZIDKOT_LONGEST_CHUNK bytes. */
    RAZIDKOT_CALL_CHUNK_TOO_LONG = 2,
    /* C3: the connection memory has another size than RAZIDKOT_CONNECTION_SIZE, or no connection in it. */
    RAZIDKOT_CALL_CONNECTION_ILL_FORMED = 3,
    /* C4: the registry memory has another size than RAZIDKOT_REGISTRY_SIZE, or no registry in it. */
    RAZIDKOT_CALL_REGISTRY_ILL_FORMED = 4,
    /* C5: a counter is above RAZIDKOT_HIGHEST_COUNTER. */
    RAZIDKOT_CALL_COUNTER_TOO_HIGH = 5,
    /* C6: the list is ill formed: document 02, "Keys we ship". */
    RAZIDKOT_CALL_LIST_ILL_FORMED = 6,
    /* C7: the journal buffer has fewer than RAZIDKOT_LEAST_JOURNAL_BUFFER bytes. */
    RAZIDKOT_CALL_JOURNAL_BUFFER_TOO_SMALL = 7
};

/* What a call says. A call that is not taken says 0 taken, 0 written and 0 recorded. */
typedef struct {
    /* A razidkot_call_code. */
    uint32_t code;
    /* How many bytes of the chunk were taken; the rest is for the caller to hand over again. */
    size_t taken;
    /* How many bytes of response were written to the front of its buffer; 0 if none is due yet. */
    size_t written;
    /*
     * How many bytes of a record were written to the front of the journal buffer; 0 but for an import or destroy that
     * was served. Append them to the journal, and have them on disk, before the response is sent.
     */
    size_t recorded;
} razidkot_answer;

/*
 * Reads a roster file into registry memory and returns a razidkot_roster_code. The memory may hold anything before.
 * The first faulty record refuses the file, and then the memory stays as it was. An empty file is a roster of none.
 */
uint32_t razidkot_load_roster(const uint8_t *file, size_t file_length, uint8_t *registry, size_t registry_length);

/*
 * Makes memory a fresh connection and returns a razidkot_open_code. The memory may hold anything before; memory of a
 * wrong size stays as it was.
 */
uint32_t razidkot_open_connection(uint8_t *memory, size_t length);

/* Sets every counter to 0. */
void razidkot_clear_counters(razidkot_counters *counters);

/*
 * Takes bytes of the chunk until one response is written, or to the chunk's end, and says how many. A chunk may end
 * anywhere within a request. Bytes of a buffer past the response or the record stay. An empty chunk is taken and changes
 * nothing. A call that is refused (code 1 to 7) changes nothing at all: connection, registry, counters and buffers stay.
 *
 * The list has the keys that every application may export and verify with besides its own: records as the roster's, a
 * name (tag 1) and its data (tag 2) for each key, at most RAZIDKOT_MOST_LISTED_KEYS. It is judged on every call and
 * never written; NULL with length 0 is the list of none. Another call may be lent another list.
 *
 * The records of all calls on a registry, joined in the order of the calls, are its journal: razidkot_journal_read
 * gives the registry back from it. A host that keeps no journal lends the buffer all the same.
 */
razidkot_answer razidkot_call(const uint8_t *chunk, size_t chunk_length,
                              uint8_t *connection, size_t connection_length,
                              uint8_t *registry, size_t registry_length,
                              const uint8_t *list, size_t list_length,
                              razidkot_counters *counters,
                              uint8_t *response, size_t response_length,
                              uint8_t *journal, size_t journal_length);

/* What razidkot_journal_begin says. */
enum razidkot_journal_begin_code {
    /* The state is that of a reader before the first byte. */
    RAZIDKOT_JOURNAL_BEGUN = 0,
    /* The memory does not have RAZIDKOT_JOURNAL_STATE_SIZE bytes. */
    RAZIDKOT_JOURNAL_WRONG_SIZE = 1
};

/*
 * What razidkot_journal_read says: of all bytes so far (0 to 4), or why it reads none (5 and 6, in this order). Of a
 * whole record the first fault is said, J1 to J3, and nothing behind that record is read.
 */
enum razidkot_journal_code {
    /* They end with a record, or there are none. */
    RAZIDKOT_JOURNAL_AT_RECORD = 0,
    /* J1: another CRC than that of the record's tag, length and value. */
    RAZIDKOT_JOURNAL_WRONG_CRC = 1,
    /* J2: no import's or destroy's layout. */
    RAZIDKOT_JOURNAL_WRONG_LAYOUT = 2,
    /*
     * J3: its line is not in use, or Import or Destroy would refuse it. Bits from 1,024 to 4,096 in multiples of 8 are
     * good here, as they once were for Import.
     */
    RAZIDKOT_JOURNAL_NOT_ALLOWED = 3,
    /* They end within a record: at the end of the file a cut record, which is no fault. */
    RAZIDKOT_JOURNAL_WITHIN_RECORD = 4,
    /* The registry memory has another size than RAZIDKOT_REGISTRY_SIZE, or no registry in it. */
    RAZIDKOT_JOURNAL_REGISTRY_ILL_FORMED = 5,
    /* The state has another size than RAZIDKOT_JOURNAL_STATE_SIZE, or no reader in it. */
    RAZIDKOT_JOURNAL_STATE_ILL_FORMED = 6
};

/* What reading says. Codes 5 and 6 come with 0 taken and 0 kept. */
typedef struct {
    /* A razidkot_journal_code. */
    uint32_t code;
    /* How many bytes of the chunk were read: all, or up to the end of the record that is refused. */
    size_t taken;
    /*
     * How many bytes the records take that were carried out, from the journal's first byte on. A refused record begins
     * there. Cut the file to so many bytes before more is appended.
     */
    uint64_t kept;
} razidkot_journal_answer;

/*
 * Makes memory the state of a journal's reader and returns a razidkot_journal_begin_code. The memory may hold anything
 * before; memory of a wrong size stays as it was.
 */
uint32_t razidkot_journal_begin(uint8_t *state, size_t length);

/*
 * Reads on in a journal, and carries out in the registry each record that ends in the chunk: its key is imported, not
 * used yet, or destroyed. At the first chunk the registry is as razidkot_load_roster left it, with the lines of the
 * roster in the order that they had when the records were written: a record names its line by number.
 *
 * A chunk may have any length and end anywhere. The registry is checked on every call, so that chunks of 64 KiB are
 * quick. It is well formed after every call. Codes 5 and 6 change nothing.
 */
razidkot_journal_answer razidkot_journal_read(uint8_t *state, size_t state_length,
                                              uint8_t *registry, size_t registry_length,
                                              const uint8_t *chunk, size_t chunk_length);

/* What razidkot_bill says. The first that applies, in this order; the codes are those of this header alone. */
enum razidkot_bill_code {
    RAZIDKOT_BILL_WRITTEN = 0,
    /* The buffer has fewer than RAZIDKOT_LEAST_BILL_BUFFER bytes. */
    RAZIDKOT_BILL_BUFFER_TOO_SMALL = 1,
    /* The connection memory has another size than RAZIDKOT_CONNECTION_SIZE, or no connection in it. */
    RAZIDKOT_BILL_CONNECTION_ILL_FORMED = 2,
    /* The registry memory has another size than RAZIDKOT_REGISTRY_SIZE, or no registry in it. */
    RAZIDKOT_BILL_REGISTRY_ILL_FORMED = 3
};

typedef struct {
    /* A razidkot_bill_code. */
    uint32_t code;
    /* How many bytes of text were written to the front of the buffer; 0 if there is no bill. */
    size_t written;
} razidkot_bill_answer;

/*
 * Writes the bill of these counters, registry and connection to the front of the buffer: lines of text, each with a
 * newline. The uses of each key that an application holds are the registry's, all else but the names is the counters' and
 * the connection's. Bytes of the buffer past the bill stay. The counters may be any numbers. Where there is no bill (code 1 to 3)
 * the buffer stays as it was.
 */
razidkot_bill_answer razidkot_bill(uint8_t *out, size_t out_length,
                                   const razidkot_counters *counters,
                                   const uint8_t *registry, size_t registry_length,
                                   const uint8_t *connection, size_t connection_length);

/*
 * How far an audit is: a value that razidkot_audit_begin makes, that each step is handed, and that it hands back. The
 * last response that the service would have written has this number, from 1, and so many bytes; so many of them were
 * compared. Well formed where place <= size <= the length of `pending`, size <= RAZIDKOT_LONGEST_RESPONSE and
 * number <= 2^63.
 */
typedef struct {
    uint64_t number;
    size_t size;
    size_t place;
    /* 1 once a byte is wrong, else 0: then number and place stay at it. Any other number is taken for 1. */
    uint32_t wrong;
    /* Those of the requests that the steps took. */
    razidkot_counters counters;
} razidkot_audit;

/* What a step says besides the codes of razidkot_call, and razidkot_audit_end too: how far the audit is, is ill formed. */
#define RAZIDKOT_AUDIT_ILL_FORMED 8

/* What a step says. A step that is refused (code 1 to 8) says 0 and 0, and the audit as it was. */
typedef struct {
    /* RAZIDKOT_CALL_TAKEN, another razidkot_call_code of requests or memory, or RAZIDKOT_AUDIT_ILL_FORMED. */
    uint32_t code;
    /* How many bytes were taken, of one of the two chunks; the rest is for the caller to hand over again. */
    size_t requests;
    size_t responses;
    /* For the next step. */
    razidkot_audit audit;
} razidkot_audited;

/* What razidkot_audit_end says, or RAZIDKOT_AUDIT_ILL_FORMED. */
enum razidkot_verdict_code {
    /* Every response is the one that the rules give. */
    RAZIDKOT_VERDICT_ACCEPTED = 0,
    /* One is not. */
    RAZIDKOT_VERDICT_WRONG = 1
};

typedef struct {
    /* A razidkot_verdict_code, or RAZIDKOT_AUDIT_ILL_FORMED. */
    uint32_t code;
    /* The first wrong response's number, from 1; 0 where none is wrong. */
    uint64_t response;
    /* Its first wrong or missing byte, from 0. */
    size_t byte;
} razidkot_verdict;

/* An audit that has taken nothing, with all counters 0. */
razidkot_audit razidkot_audit_begin(void);

/*
 * A step of an audit: captured responses are compared with those that the rules give for captured requests. It takes
 * bytes of the responses while a response is pending, and else bytes of the requests, as razidkot_call does; a wrong byte
 * is not taken. Each chunk may end anywhere. `is_last` says that no response byte comes behind this chunk.
 *
 * Connection, registry and list are as the service had them when the capture began. `pending` is a buffer of at least
 * RAZIDKOT_LEAST_RESPONSE_BUFFER bytes, the same in all steps, for the response that is compared; nobody keeps what is
 * written to `journal`. Hand over all requests, and the responses until the requests are taken and none of them is:
 * then both streams have ended.
 */
razidkot_audited razidkot_audit_step(razidkot_audit audit,
                                     const uint8_t *requests, size_t requests_length,
                                     const uint8_t *responses, size_t responses_length,
                                     bool is_last,
                                     uint8_t *connection, size_t connection_length,
                                     uint8_t *registry, size_t registry_length,
                                     const uint8_t *list, size_t list_length,
                                     uint8_t *pending, size_t pending_length,
                                     uint8_t *journal, size_t journal_length);

/*
 * The verdict, once all requests are taken: `rest` is what is left of the responses, some or none. razidkot_bill has
 * the bill, of the audit's counters, the registry and the connection.
 */
razidkot_verdict razidkot_audit_end(razidkot_audit audit,
                                    const uint8_t *pending, size_t pending_length,
                                    const uint8_t *rest, size_t rest_length);

#ifdef __cplusplus
}
#endif

#endif
