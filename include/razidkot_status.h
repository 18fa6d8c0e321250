/* The version, and the statuses of a response, for razidkot.h and razidkot_client.h: each includes it. C99 and C++. */
#ifndef RAZIDKOT_STATUS_H
#define RAZIDKOT_STATUS_H

/*
 * The version of the headers, of both archives, of their pkg-config files and of the Rust crates. Sizes, codes and
 * counters may differ between two versions: link the archive of the headers' own.
 */
#define RAZIDKOT_VERSION_MAJOR 0
#define RAZIDKOT_VERSION_MINOR 2
#define RAZIDKOT_VERSION_PATCH 0
#define RAZIDKOT_VERSION "0.2.0"

/* The status of a response, its last two header bytes (24 and 25), little-endian. */
enum razidkot_status {
    RAZIDKOT_SUCCESS = 0,
    RAZIDKOT_WRONG_PROVIDER_ID = 1,
    RAZIDKOT_CONTENT_TYPE_NOT_SUPPORTED = 2,
    RAZIDKOT_ACCEPT_TYPE_NOT_SUPPORTED = 3,
    RAZIDKOT_WIRE_PROTOCOL_VERSION_NOT_SUPPORTED = 4,
    RAZIDKOT_PROVIDER_DOES_NOT_EXIST = 6,
    /* The response's body says at which byte the request's can't be read. No other status but 0 has a body. */
    RAZIDKOT_DESERIALIZING_BODY_FAILED = 7,
    RAZIDKOT_OPCODE_DOES_NOT_EXIST = 9,
    RAZIDKOT_AUTHENTICATION_ERROR = 11,
    RAZIDKOT_AUTHENTICATOR_DOES_NOT_EXIST = 12,
    RAZIDKOT_INVALID_HEADER = 17,
    RAZIDKOT_NOT_AUTHENTICATED = 19,
    RAZIDKOT_BODY_SIZE_EXCEEDS_LIMIT = 20,
    RAZIDKOT_PSA_ERROR_NOT_PERMITTED = 1133,
    /* Of an import: bits other than 2,048, 3,072 and 4,096. Of a verify: a key that can't be used so. */
    RAZIDKOT_PSA_ERROR_NOT_SUPPORTED = 1134,
    RAZIDKOT_PSA_ERROR_INVALID_ARGUMENT = 1135,
    RAZIDKOT_PSA_ERROR_ALREADY_EXISTS = 1139,
    RAZIDKOT_PSA_ERROR_DOES_NOT_EXIST = 1140,
    RAZIDKOT_PSA_ERROR_INSUFFICIENT_STORAGE = 1142,
    RAZIDKOT_PSA_ERROR_INVALID_SIGNATURE = 1149
};

#endif
