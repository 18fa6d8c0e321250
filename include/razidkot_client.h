/*
 * The key service's client for C: target/staticlib/libclient_abi.a, which `./prove client_abi` writes (x86-64,
 * System V). It writes requests and reads their responses; the bytes between are sent by the caller. It needs no part of
 * the service, allocates nothing, keeps nothing between calls and needs no library but C's. All memory is the caller's.
 * docs/LAYOUT.md has the layout of a reader's state; documents 01 and 02 are the requirements papers. It stands alone or
 * beside razidkot.h.
 *
 * Memory is handed over as a pointer and a length (in bytes, of a list's entries in numbers). Every function is defined
 * for any bytes and any lengths:
 *
 *   - Short or long memory is answered: a request buffer below RAZIDKOT_CLIENT_LEAST_REQUEST_BUFFER, a state of a wrong
 *     size, names, data, hashes and signatures of a length that is not allowed, room for fewer entries than a list has.
 *   - NULL with length 0 is empty memory and is answered as such: an empty chunk or signature, which are good; an empty
 *     name, hash or empty data, which are refused; a request buffer that is too small; a state of a wrong size; no room for
 *     an entry.
 *   - An ill-formed state of the right size is answered: RAZIDKOT_CLIENT_READ_STATE_ILL_FORMED.
 *
 * What it can't tell, and what is undefined:
 *
 *   - NULL, or any other pointer that is not valid, with a length above 0.
 *   - A length above that of the memory behind the pointer.
 *   - Memory that the call writes and that overlaps other memory of the same call.
 *   - A pointer to entries that is not aligned for uint32_t, where there is room for any.
 *   - A bool that is neither true nor false.
 *
 * Threads: the functions share no memory, so calls on different memory may run at the same time. A request buffer, a
 * state and room for entries may each be in one call at a time, and nothing else may read or write them meanwhile.
 */
#ifndef RAZIDKOT_CLIENT_H
#define RAZIDKOT_CLIENT_H

#include "razidkot_status.h"

#include <stdbool.h>
#include <stddef.h>
#include <stdint.h>

#ifdef __cplusplus
extern "C" {
#endif

/* A shorter request buffer is refused, whatever the request. */
#define RAZIDKOT_CLIENT_LEAST_REQUEST_BUFFER 5120
/* No request is longer. */
#define RAZIDKOT_CLIENT_LONGEST_REQUEST 4188
/* The one size of a reader's state. */
#define RAZIDKOT_CLIENT_STATE_SIZE 1037
/* No longer response is read. */
#define RAZIDKOT_CLIENT_LONGEST_RESPONSE 1024
/* No list that is read has more entries. */
#define RAZIDKOT_CLIENT_MOST_ENTRIES 995

/* The most bytes of an application's name, of a key's name and of a key's data; each has at least 1. */
#define RAZIDKOT_CLIENT_LONGEST_APPLICATION_NAME 64
#define RAZIDKOT_CLIENT_LONGEST_KEY_NAME 32
#define RAZIDKOT_CLIENT_LONGEST_DATA 600
/* The one size of a hash, SHA-256's. */
#define RAZIDKOT_CLIENT_HASH_SIZE 32
/* The most bytes of a request's body: a longer one, which only PsaAsymmetricVerify could have, is refused. */
#define RAZIDKOT_CLIENT_LONGEST_BODY 4096
/* The bits of a key that is imported: the least, the most, and from one length to the next. No other is taken. */
#define RAZIDKOT_CLIENT_LEAST_BITS 2048
#define RAZIDKOT_CLIENT_MOST_BITS 4096
#define RAZIDKOT_CLIENT_BITS_STEP 1024

/*
 * How a body is written: a request's content type says it of its own body, and its accept type asks for it in the
 * response, whichever the request used. A service that knows format 1 alone answers content type 2 with
 * RAZIDKOT_CONTENT_TYPE_NOT_SUPPORTED.
 */
enum razidkot_client_body_format {
    /* Protocol Buffers. */
    RAZIDKOT_CLIENT_BODY_FORMAT_PROTOBUF = 1,
    /* Tagged records: a byte of tag, which is the field's number, two of length, and the value. */
    RAZIDKOT_CLIENT_BODY_FORMAT_TAGGED = 2
};

/* The providers: those that razidkot_client_write_list_opcodes may name, and the entries of ListProviders' list. */
enum razidkot_client_provider {
    RAZIDKOT_CLIENT_PROVIDER_CORE = 0,
    RAZIDKOT_CLIENT_PROVIDER_KEYSTORE = 1
};

/* The listed operations: what razidkot_client_begin takes, and the entries of ListOpcodes' list. */
enum razidkot_client_opcode {
    RAZIDKOT_CLIENT_OPCODE_PING = 1,
    RAZIDKOT_CLIENT_OPCODE_PSA_DESTROY_KEY = 3,
    RAZIDKOT_CLIENT_OPCODE_PSA_ASYMMETRIC_VERIFY = 5,
    RAZIDKOT_CLIENT_OPCODE_PSA_IMPORT_KEY = 6,
    RAZIDKOT_CLIENT_OPCODE_PSA_EXPORT_PUBLIC_KEY = 7,
    RAZIDKOT_CLIENT_OPCODE_LIST_PROVIDERS = 8,
    RAZIDKOT_CLIENT_OPCODE_LIST_OPCODES = 9
};

/* ---- Requests written */

/* What writing a request says. The first that applies, in this order, but for 8, which is judged before 1. */
enum razidkot_client_write_code {
    RAZIDKOT_CLIENT_WRITE_WRITTEN = 0,
    /* The buffer has fewer than RAZIDKOT_CLIENT_LEAST_REQUEST_BUFFER bytes. */
    RAZIDKOT_CLIENT_WRITE_BUFFER_TOO_SMALL = 1,
    /* The application's name is not of 1 to 64 bytes, or has a byte outside 0x21 to 0x7E. Not judged of nobody's. */
    RAZIDKOT_CLIENT_WRITE_APPLICATION_NAME_ILLEGAL = 2,
    /* The key's name is not of 1 to 32 bytes, or has a byte outside 0x21 to 0x7E. */
    RAZIDKOT_CLIENT_WRITE_KEY_NAME_ILLEGAL = 3,
    /* The data is not of 1 to 600 bytes. */
    RAZIDKOT_CLIENT_WRITE_DATA_ILLEGAL = 4,
    /* The bits are not 2,048, 3,072 or 4,096: the service would answer RAZIDKOT_PSA_ERROR_NOT_SUPPORTED. */
    RAZIDKOT_CLIENT_WRITE_BITS_ILLEGAL = 5,
    /* The hash is not of 32 bytes. */
    RAZIDKOT_CLIENT_WRITE_HASH_ILLEGAL = 6,
    /* The body, in its format, would have more than RAZIDKOT_CLIENT_LONGEST_BODY bytes: the signature is too long. */
    RAZIDKOT_CLIENT_WRITE_BODY_TOO_LONG = 7,
    /* The content type or the accept type is no razidkot_client_body_format. Judged first. */
    RAZIDKOT_CLIENT_WRITE_TYPE_UNLISTED = 8
};

/* What writing a request says, and how long it is. */
typedef struct {
    /* A razidkot_client_write_code. */
    uint32_t code;
    /* How many bytes of request were written to the front of the buffer; 0 if it was refused. */
    size_t written;
} razidkot_client_request;

/*
 * Each writes one request to the front of the buffer, from the application of that name if `named` is true (auth type 1),
 * else from nobody (auth type 0); of nobody's the name is not looked at. The session is any number: the response repeats
 * it. The body is in the format `content_type`, and the response's is to be in `accept_type`: each is a
 * razidkot_client_body_format. Bytes of the buffer past the request stay. A request that is refused (code 1 to 8) leaves
 * all of the buffer as it was. Nothing else is refused: what the service will not do, a keystore operation for nobody, the opcodes of a provider
 * that is not there or a signature of another length than the key's, is written as asked, and the response's status says
 * so.
 */

/* Ping: which version of the protocol the service speaks. */
razidkot_client_request razidkot_client_write_ping(uint8_t *out, size_t out_length, uint64_t session,
                                                   uint8_t content_type, uint8_t accept_type,
                                                   bool named, const uint8_t *application, size_t application_length);

/* ListProviders: which providers there are. */
razidkot_client_request razidkot_client_write_list_providers(uint8_t *out, size_t out_length, uint64_t session,
                                                             uint8_t content_type, uint8_t accept_type,
                                                             bool named, const uint8_t *application,
                                                             size_t application_length);

/* ListOpcodes: which operations a provider has. */
razidkot_client_request razidkot_client_write_list_opcodes(uint8_t *out, size_t out_length, uint64_t session,
                                                           uint8_t content_type, uint8_t accept_type,
                                                           bool named, const uint8_t *application,
                                                           size_t application_length, uint32_t provider);

/*
 * PsaImportKey: keeps a public key under a name. `bytes` is its data, which the service keeps as it is, and `bits` the
 * key's length: 2,048, 3,072 or 4,096. `exported` and `verified` say whether it may be exported, and used to verify. A key
 * that is to verify is a DER RSAPublicKey (RFC 8017); no other data is refused here.
 */
razidkot_client_request razidkot_client_write_import(uint8_t *out, size_t out_length, uint64_t session,
                                                     uint8_t content_type, uint8_t accept_type,
                                                     bool named, const uint8_t *application, size_t application_length,
                                                     const uint8_t *name, size_t name_length,
                                                     const uint8_t *bytes, size_t bytes_length,
                                                     uint32_t bits, bool exported, bool verified);

/* PsaDestroyKey: drops the key of that name. */
razidkot_client_request razidkot_client_write_destroy(uint8_t *out, size_t out_length, uint64_t session,
                                                      uint8_t content_type, uint8_t accept_type,
                                                      bool named, const uint8_t *application, size_t application_length,
                                                      const uint8_t *name, size_t name_length);

/* PsaExportPublicKey: the data of the key of that name. */
razidkot_client_request razidkot_client_write_export(uint8_t *out, size_t out_length, uint64_t session,
                                                     uint8_t content_type, uint8_t accept_type,
                                                     bool named, const uint8_t *application, size_t application_length,
                                                     const uint8_t *name, size_t name_length);

/*
 * PsaAsymmetricVerify: is `signature` the key's on what has the SHA-256 `hash`? By RSASSA-PKCS1-v1_5 (RFC 8017, 8.2.2),
 * the hash standing for the message's. The response's status says it and has no output: RAZIDKOT_SUCCESS for a signature
 * that is good, RAZIDKOT_PSA_ERROR_INVALID_SIGNATURE for one that isn't, RAZIDKOT_PSA_ERROR_NOT_SUPPORTED for a key that
 * can't be used so, RAZIDKOT_PSA_ERROR_NOT_PERMITTED for one that may not be, RAZIDKOT_PSA_ERROR_DOES_NOT_EXIST for none.
 * The hash has RAZIDKOT_CLIENT_HASH_SIZE bytes. A signature of any length is written that leaves the body at most
 * RAZIDKOT_CLIENT_LONGEST_BODY bytes: of 4,023 or fewer always, in either format.
 */
razidkot_client_request razidkot_client_write_verify(uint8_t *out, size_t out_length, uint64_t session,
                                                     uint8_t content_type, uint8_t accept_type,
                                                     bool named, const uint8_t *application, size_t application_length,
                                                     const uint8_t *name, size_t name_length,
                                                     const uint8_t *hash, size_t hash_length,
                                                     const uint8_t *signature, size_t signature_length);

/* ---- Responses read */

/* What razidkot_client_begin says. */
enum razidkot_client_begin_code {
    /* The state awaits the response to that request. */
    RAZIDKOT_CLIENT_BEGIN_FRESH = 0,
    /* The memory does not have RAZIDKOT_CLIENT_STATE_SIZE bytes. */
    RAZIDKOT_CLIENT_BEGIN_WRONG_SIZE = 1,
    /* The opcode is no razidkot_client_opcode. */
    RAZIDKOT_CLIENT_BEGIN_UNLISTED_OPCODE = 2,
    /* The accept type is no razidkot_client_body_format. */
    RAZIDKOT_CLIENT_BEGIN_UNLISTED_TYPE = 3
};

/*
 * Makes memory the state of a reader, for the response to the request of that opcode, session and accept type, and returns
 * a razidkot_client_begin_code, the first that applies. The memory may hold anything before; if it is refused (code 1 to 3)
 * it stays as it was. One state reads one response.
 */
uint32_t razidkot_client_begin(uint8_t *state, size_t state_length, uint16_t opcode, uint64_t session,
                               uint8_t accept_type);

/* What razidkot_client_read says. The first that applies, in this order, but for 0 and 1, which say that none does. */
enum razidkot_client_read_code {
    /* All bytes of the chunk were taken, and the response goes on. */
    RAZIDKOT_CLIENT_READ_WAITING = 0,
    /* A whole response. */
    RAZIDKOT_CLIENT_READ_RESPONSE = 1,
    /* The memory has another size than RAZIDKOT_CLIENT_STATE_SIZE, or no state in it. */
    RAZIDKOT_CLIENT_READ_STATE_ILL_FORMED = 2,
    /* At the response's sixth byte: it does not begin with the magic number. */
    RAZIDKOT_CLIENT_READ_WRONG_MAGIC = 3,
    /* At its sixth byte: a header size other than 20. */
    RAZIDKOT_CLIENT_READ_WRONG_HEADER_SIZE = 4,
    /* At the header's last byte, the 26th: a version other than 1.0. */
    RAZIDKOT_CLIENT_READ_WRONG_VERSION = 5,
    /* At the header's last byte: a content type other than its request's accept type; with status 17 other than 1. */
    RAZIDKOT_CLIENT_READ_WRONG_CONTENT_TYPE = 6,
    /* At the header's last byte: opcode, session or provider is not its request's, nor is it a status 17 with none. */
    RAZIDKOT_CLIENT_READ_NOT_ITS_REQUESTS = 7,
    /* At the header's last byte: content above 998 bytes. */
    RAZIDKOT_CLIENT_READ_CONTENT_TOO_LONG = 8,
    /*
     * At the body's last byte: on status 0 not the output of that operation, on status 7 no offset, on any other status
     * any body.
     */
    RAZIDKOT_CLIENT_READ_UNREADABLE_BODY = 9
};

/*
 * What a response has besides its status. Any status but RAZIDKOT_SUCCESS has nothing, but for
 * RAZIDKOT_DESERIALIZING_BODY_FAILED, which has an offset always.
 */
enum razidkot_client_output_kind {
    /* Of PsaImportKey, PsaDestroyKey and PsaAsymmetricVerify. */
    RAZIDKOT_CLIENT_OUTPUT_NOTHING = 0,
    /* Of Ping: `major` and `minor`. */
    RAZIDKOT_CLIENT_OUTPUT_VERSION = 1,
    /* Of ListProviders: a list. */
    RAZIDKOT_CLIENT_OUTPUT_PROVIDERS = 2,
    /* Of ListOpcodes: a list. */
    RAZIDKOT_CLIENT_OUTPUT_OPCODES = 3,
    /* Of PsaExportPublicKey: the key's data. */
    RAZIDKOT_CLIENT_OUTPUT_DATA = 4,
    /* Of RAZIDKOT_DESERIALIZING_BODY_FAILED, whatever the operation: `offset`. */
    RAZIDKOT_CLIENT_OUTPUT_OFFSET = 5
};

/* What an output doesn't have is 0. */
typedef struct {
    /* A razidkot_client_output_kind. */
    uint32_t kind;
    /* The version's two numbers. */
    uint32_t major;
    uint32_t minor;
    /* At which byte of the request's body the first field begins that the service couldn't read: its tag, from 0. */
    uint32_t offset;
    /*
     * Where data, or a list that razidkot_client_read_list takes apart, begins in the state's memory, and how many bytes
     * it has. It lies within that memory, and stays until another state is begun there.
     */
    size_t start;
    size_t length;
} razidkot_client_output;

/* What a call says. */
typedef struct {
    /* A razidkot_client_read_code. */
    uint32_t code;
    /* The response's status, a razidkot_status or any other number below 65,536; 0 if there is no response. */
    uint32_t status;
    /* How many bytes of the chunk were taken; the rest is no part of this response. */
    size_t taken;
    /* The response's output. */
    razidkot_client_output output;
} razidkot_client_answer;

/*
 * Takes bytes of the chunk to the response's last, or to the one that brings a refusal, or to the chunk's end, and says
 * what they come to. A chunk may have any length and end anywhere; an empty one is taken, changes nothing, and what was
 * said is said again. After a response or a refusal (code 1 or 3 to 9) nothing is taken and the same is said. An ill-formed
 * state (code 2) takes nothing and stays as it was.
 */
razidkot_client_answer razidkot_client_read(uint8_t *state, size_t state_length,
                                            const uint8_t *chunk, size_t chunk_length);

/*
 * Writes the entries of a list to the front of `entries`, as many as there is room for, and returns how many those are;
 * the room past them stays. `accept_type` is the one that the state was begun with: a varint an entry with 1, four bytes
 * with 2. `packed` is the list where it lies: `state + output.start`, of `output.length` bytes. In other bytes it reads as
 * many entries as can be read, and with another type than 1 and 2 it reads as with 1. Room for
 * RAZIDKOT_CLIENT_MOST_ENTRIES holds any list.
 */
size_t razidkot_client_read_list(uint8_t accept_type, const uint8_t *packed, size_t packed_length,
                                 uint32_t *entries, size_t entries_length);

#ifdef __cplusplus
}
#endif

#endif
