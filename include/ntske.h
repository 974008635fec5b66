/*
 * The key exchange of Network Time Security (RFC 8915) for a host in C (C11) or C++ (C++11).
 *
 * The host keeps TLS, keys, ciphers and sockets. The library reads and writes the messages, chooses
 * protocol and algorithm, allocates nothing and keeps nothing. Its functions are those of
 * crates/reading, deciding, feeding, handing, planning, writing and showing, which are proved to
 * meet their contracts; this header is not, and tests/abi holds it against the source.
 *
 * A server, once a whole request of `len` bytes is in `message`:
 *
 *     struct ntske_request request;
 *     struct ntske_choice choice;
 *     struct ntske_plan plan;
 *     uint64_t answer = ntske_read_request(message, len, NTSKE_LIMIT, table, TABLE_LEN, &request);
 *     if (answer != NTSKE_OK)
 *         ntske_write_error(ntske_error_code(answer), out, OUT_LEN, &written);
 *     else if (request.sort == NTSKE_KEY_EXCHANGE) {
 *         const struct ntske_key_exchange *x = &request.key_exchange;
 *         answer = ntske_choose(message + x->protocols.start, x->protocols.len,
 *                               message + x->algorithms.start, x->algorithms.len,
 *                               own_protocols, 1, own_algorithms, 2, &choice);
 *         ..                                   (13 and 14 have writers of their own)
 *         ntske_plan_new((uint16_t)choice.protocol, (uint16_t)choice.algorithm, &plan);
 *         ntske_plan_append(&plan, cookie, cookie_len, tray, TRAY_LEN);         (up to eight)
 *         ntske_write_reply(&plan, tray, TRAY_LEN, NTSKE_NO_BYTES, 0, out, OUT_LEN, &written);
 *     }
 *
 * A client, which reads the reply with the two lists that it offered:
 *
 *     ntske_write_request(protocols, 1, algorithms, 2, NTSKE_NO_BYTES, 0, 0, out, OUT_LEN,
 *                         &written);
 *     ..                                       (send it, and take the whole reply)
 *     struct ntske_reply reply;
 *     answer = ntske_read_reply(message, len, NTSKE_LIMIT, protocols, 1, algorithms, 2, table,
 *                               TABLE_LEN, &reply);
 *     if (answer != NTSKE_OK)
 *         printf("refused %u at %lu: %s\n", ntske_refusal(answer), ntske_place(answer),
 *                ntske_words(answer));
 *     for (size_t i = 0; answer == NTSKE_OK && i < reply.cookies; i++)
 *         ntske_entry(message, len, table, TABLE_LEN, i, &cookie);
 *
 * A host that takes a message off a line need not know when it is whole: it hands over what comes,
 * as it comes (see "reading in pieces"). One that logs which records a request held, also where it
 * is refused, reads it in two calls (see "reading and deciding"). One that shows where a sender
 * forgot a critical bit, or added one, reads record by record (see ntske_bit_named). One that may
 * take only what RFC 8915 allows reads in the strict profile (see ntske_read_request_strict).
 *
 * README.md has server and client as programs, and examples/host.c is a whole host.
 *
 * What a call returns. Every call ends with an answer for every value of its arguments. It returns
 * NTSKE_OK, or one word that is taken apart by functions and said in words by ntske_words:
 *
 *     bits  0 to  7   the refusal's number                                     ntske_refusal
 *     bits  8 to 15   what was not offered, of 17 alone: 1 a protocol,         ntske_beside_sort
 *                     2 an algorithm; otherwise 0
 *     bits 16 to 31   the number beside it: 5, 11, 12 and 17 have one          ntske_beside
 *     bits 32 to 63   its place: those of ntske_read_request and               ntske_place
 *                     ntske_read_reply, strict or not, of
 *                     ntske_decide_request and of the calls that feed or
 *                     close have one
 *
 * A call that is refused changes nothing that was lent to it: no struct, no count, no table, no
 * tray, no output; of a read in pieces alone the buffer and the connection may change.
 * ntske_feed_request and ntske_feed_reply may also return NTSKE_WAITING, which is neither NTSKE_OK
 * nor a refusal. ntske_bit_named, ntske_is_utf8 and ntske_version refuse nothing and return their
 * answer.
 *
 * What the host owes, since the compiler cannot see it: a pointer is not NULL and is aligned for
 * what it points to, also where the length behind it is 0 (NTSKE_NO_BYTES and NTSKE_NO_NUMBERS are
 * there to be lent for none that is only read; a table, a tray or an output of length 0 is an
 * element of the host's own); it points to as many elements as that length says, or, where no
 * length is behind it, to one; what is written to overlaps nothing else that is lent to the same
 * call; and no length is above PTRDIFF_MAX in bytes. What a call only writes need not be set
 * before.
 */
#ifndef NTSKE_H
#define NTSKE_H

#include <stddef.h>
#include <stdint.h>

#ifdef __cplusplus
extern "C" {
#define NTSKE_ASSERT static_assert
#else
#define NTSKE_ASSERT _Static_assert
#endif

/* ---- numbers --------------------------------------------------------------------------------- */

/* This header's version, 0.5.0, a byte for each number. ntske_version tells the archive's. */
#define NTSKE_VERSION 0x000500

/* TLS (RFC 8915, section 4): the application protocol's name (ALPN), and the port. */
#define NTSKE_ALPN "ntske/1"
#define NTSKE_PORT 4460

/* The exporter's label (section 4.3), and the length of its context: see ntske_context. */
#define NTSKE_EXPORTER_LABEL "EXPORTER-network-time-security"
#define NTSKE_CONTEXT_LEN 5

/* The largest limit of a reader, the most cookies of a plan, and a tray's bytes before a body. */
#define NTSKE_LIMIT 65535
#define NTSKE_MOST_COOKIES 8
#define NTSKE_FIELD_HEADER 3

/*
 * The bytes of an output that holds every listing. That none is longer is proved: listing-longest,
 * in crates/listing/proofs/Longest.antt.
 */
#define NTSKE_LISTING 262272

/* To be lent with the length 0, where there are no bytes or no numbers. */
static const uint16_t ntske_none[1] = {0};
#define NTSKE_NO_BYTES ((const uint8_t *)ntske_none)
#define NTSKE_NO_NUMBERS ntske_none

/* What a call returns that refuses nothing, and what one returns after which the read waits. */
#define NTSKE_OK 0
#define NTSKE_WAITING 65535

/* The refusals, by their numbers. */
enum ntske_refusals {
    NTSKE_UNEXPECTED_EOF = 1,
    NTSKE_INVALID_DATA = 2,
    NTSKE_UNRECOGNIZED_CRITICAL_RECORD = 3,
    NTSKE_INVALID = 4,
    NTSKE_AEAD_NOT_SUPPORTED = 5,
    NTSKE_INCORRECT_SIZED_KEY = 6,
    NTSKE_TABLE_FULL = 7,
    NTSKE_INVALID_INPUT = 8,
    NTSKE_INVALID_VALUE = 9,
    NTSKE_OUTPUT_TOO_SHORT = 10,
    NTSKE_ERROR = 11,
    NTSKE_UNKNOWN_WARNING = 12,
    NTSKE_NO_OVERLAPPING_PROTOCOL = 13,
    NTSKE_NO_OVERLAPPING_ALGORITHM = 14,
    NTSKE_NO_COOKIE = 15,
    NTSKE_BUFFER_FULL = 16,
    NTSKE_NOT_OFFERED = 17,
    NTSKE_NOT_ALLOWED = 18
};

/* What the number beside a refusal is: see ntske_beside_sort. */
enum ntske_beside_sorts {
    NTSKE_BESIDE_NONE = 0,
    NTSKE_BESIDE_PROTOCOL = 1,
    NTSKE_BESIDE_ALGORITHM = 2,
    NTSKE_BESIDE_CODE = 3
};

/* Kinds of records: RFC 8915, section 4.1, and from 8 on those that the library knows besides. */
enum ntske_kinds {
    NTSKE_KIND_END_OF_MESSAGE = 0,
    NTSKE_KIND_NEXT_PROTOCOL = 1,
    NTSKE_KIND_ERROR = 2,
    NTSKE_KIND_WARNING = 3,
    NTSKE_KIND_AEAD_ALGORITHM = 4,
    NTSKE_KIND_NEW_COOKIE = 5,
    NTSKE_KIND_SERVER = 6,
    NTSKE_KIND_PORT = 7,
    NTSKE_KIND_KEEP_ALIVE = 8,
    NTSKE_KIND_SUPPORTED_NEXT_PROTOCOL_LIST = 9,
    NTSKE_KIND_SUPPORTED_ALGORITHM_LIST = 10,
    NTSKE_KIND_FIXED_KEY_REQUEST = 12,
    NTSKE_KIND_NTP_SERVER_DENY = 13,
    NTSKE_KIND_AUTHENTICATION = 14
};

/*
 * The critical bit that is named for a kind: see ntske_bit_named. An unknown kind's is the one that
 * is given, and NTSKE_BIT_GIVEN is no bit of a record.
 */
enum ntske_bits { NTSKE_BIT_CLEAR = 0, NTSKE_BIT_SET = 1, NTSKE_BIT_GIVEN = 2 };

/*
 * Where a finding counts the records of a kind: see ntske_finding. A known kind has its own number,
 * and all unknown ones are together under 11, which no known kind has.
 */
#define NTSKE_FOUND_KINDS 15
enum ntske_found_indices {
    NTSKE_FOUND_END_OF_MESSAGE = 0,
    NTSKE_FOUND_NEXT_PROTOCOL = 1,
    NTSKE_FOUND_ERROR = 2,
    NTSKE_FOUND_WARNING = 3,
    NTSKE_FOUND_AEAD_ALGORITHM = 4,
    NTSKE_FOUND_NEW_COOKIE = 5,
    NTSKE_FOUND_SERVER = 6,
    NTSKE_FOUND_PORT = 7,
    NTSKE_FOUND_KEEP_ALIVE = 8,
    NTSKE_FOUND_SUPPORTED_NEXT_PROTOCOL_LIST = 9,
    NTSKE_FOUND_SUPPORTED_ALGORITHM_LIST = 10,
    NTSKE_FOUND_UNKNOWN = 11,
    NTSKE_FOUND_FIXED_KEY_REQUEST = 12,
    NTSKE_FOUND_NTP_SERVER_DENY = 13,
    NTSKE_FOUND_AUTHENTICATION = 14
};

/* How a message is read: as document 01 has it, or as RFC 8915 alone allows. */
enum ntske_profiles { NTSKE_USUAL = 0, NTSKE_STRICT = 1 };

/* Sorts of requests. */
enum ntske_sorts { NTSKE_KEY_EXCHANGE = 1, NTSKE_FIXED_KEY = 2, NTSKE_SUPPORT = 3 };

/*
 * Protocols: NTPv4 (section 7.7), and NTPv5 as its drafts number it. Algorithms (RFC 5297), and the
 * lengths of their keys in bytes.
 */
enum ntske_protocols { NTSKE_NTPV4 = 0, NTSKE_DRAFT_NTPV5 = 0x8001 };
enum ntske_algorithms { NTSKE_AES_SIV_CMAC_256 = 15, NTSKE_AES_SIV_CMAC_512 = 17 };
enum ntske_key_lengths { NTSKE_KEY_256 = 32, NTSKE_KEY_512 = 64 };

/* Codes of error records (section 4.1.3). Of warning records (section 4.1.4) the RFC names none. */
enum ntske_error_codes {
    NTSKE_CODE_UNRECOGNIZED_CRITICAL_RECORD = 0,
    NTSKE_CODE_BAD_REQUEST = 1,
    NTSKE_CODE_INTERNAL_SERVER_ERROR = 2
};

/* What a support reply is to hold, as a sum of these. */
enum ntske_asked { NTSKE_ALGORITHMS = 1, NTSKE_PROTOCOLS = 2, NTSKE_KEEP_ALIVE = 4 };

/* The tag of a tray's field: a cookie of a reply, or a name that a request denies. */
enum ntske_tags { NTSKE_TAG_COOKIE = 1, NTSKE_TAG_DENIED = 2 };

/* ---- what is lent for an answer ---------------------------------------------------------------
 *
 * Each struct is laid out as an array of size_t; ntske_finding alone, with the ntske_seen in it, as
 * one of uint16_t. A protocol, an algorithm, a port, a kind and a code have sixteen bits; a flag
 * (has_.., wants_.., keep_alive, critical, there) is 0 or 1.
 */

/* Some bytes of a message: where they begin, and how many there are. */
struct ntske_range {
    size_t start;
    size_t len;
};

struct ntske_key_exchange {
    struct ntske_range protocols;      /* the client's list, two bytes a number, best first */
    struct ntske_range algorithms;
    size_t denied;                    /* how many names are in the table */
};

struct ntske_fixed_key {
    struct ntske_range authentication;
    struct ntske_range c2s;            /* the key from client to server */
    struct ntske_range s2c;            /* the key from server to client */
    size_t algorithm;                 /* 15 or 17, and the keys are as long as it asks */
    size_t protocol;                  /* not judged */
    size_t keep_alive;
};

struct ntske_support {
    struct ntske_range authentication;
    size_t wants_protocols;
    size_t wants_algorithms;
    size_t keep_alive;
};

/* A request: its sort, and what belongs to it; the cells behind that are 0. */
struct ntske_request {
    size_t sort;
    union {
        struct ntske_key_exchange key_exchange;
        struct ntske_fixed_key fixed_key;
        struct ntske_support support;
    };
};

struct ntske_reply {
    size_t protocol;
    size_t algorithm;
    size_t has_server;
    struct ntske_range server;         /* 0 and 0 where no server is named */
    size_t has_port;
    size_t port;                      /* 0 where there is none */
    size_t keep_alive;
    size_t cookies;                   /* how many are in the table: one at least */
};

/*
 * One record. The reader gives the critical bit as it was received, of every kind, and 0 for what a
 * kind does not have. The writer asks of every kind that `critical` is 0 or 1 and `number` is at
 * most 65,535; beyond that it looks at `critical` of an unknown kind alone, 11 and 15 to 32,767,
 * and not at what a kind does not have.
 */
struct ntske_record {
    size_t kind;
    size_t critical;                  /* read: as received; written: of an unknown kind alone */
    size_t number;                    /* of kinds 2, 3 and 7 */
    struct ntske_range body;           /* of kind 12 the key from client to server */
    struct ntske_range second;         /* of kind 12 the key from server to client */
};

struct ntske_record_read {
    struct ntske_record record;
    size_t next;                      /* the place after it */
};

/* An entry of a list. */
struct ntske_listed {
    size_t there;                     /* 0 where the list has none there, and then all is 0 */
    size_t number;
    size_t key_size;                  /* of a pair; otherwise 0 */
};

struct ntske_choice {
    size_t protocol;
    size_t algorithm;
};

/* The records of one kind: how many there were, and where the body of the first one lies. */
struct ntske_seen {
    uint16_t count;                   /* 0 where there was none, and then all is 0 */
    uint16_t start;
    uint16_t len;                     /* of kind 12 both keys */
};

/*
 * What a walk over a request found; made by ntske_walk_request. It is the host's to keep and to
 * copy. One that is made or changed by hand is judged: see ntske_decide_request.
 */
struct ntske_finding {
    uint16_t limit;                   /* after how many bytes the message was cut */
    uint16_t place;                   /* of the first byte of the record that stopped the walk */
    uint16_t reason;                  /* 0: the end record; 1, 2, 3 or 4: that refusal */
    struct ntske_seen found[NTSKE_FOUND_KINDS]; /* by kind: see ntske_found_indices */
};

/*
 * What a reply is to hold; made by ntske_plan_new. The plan is the host's to keep and to copy. One
 * that is made or changed by hand is judged: 9 where a number is above 65,535 (protocol, algorithm,
 * port, name_len) or a flag is neither 0 nor 1. A call that changes a plan puts all of it, with 0
 * for a port or a length that is not planned.
 */
struct ntske_plan {
    size_t protocol;
    size_t algorithm;
    size_t has_port;
    size_t port;
    size_t has_name;
    size_t name_len;                  /* of the server's name, in bytes */
    size_t keep_alive;
    size_t used;                      /* how many bytes of the tray of cookies are used */
};

/*
 * A read in pieces, one for each line; made by ntske_connection_new or, to be read in the strict
 * profile, by ntske_connection_new_strict. It is the host's to keep and to copy, and only the
 * library changes it: it is lent to the next call as the last one left it. Of 17, `number` is 273
 * where a protocol and 529 where an algorithm was not offered. One that is made or changed by hand
 * is judged: 9 where `limit` or `met` is above 65,535, `state` above 2, `number` (of state 2) none
 * of 1 to 16, 18, 273 and 529, `beside` above 65,535 or not 0 where that number has none, `place`
 * above 4,294,967,295, one of these three not 0 in another state, or `profile` above 1. Any other
 * numbers have a determined answer. In state 1 that is what the bytes gathered say to one who
 * offered what they name: the lists that are lent then are not asked.
 */
struct ntske_connection {
    size_t limit;                     /* after how many bytes the message is cut */
    size_t gathered;                  /* how many bytes the front of the buffer holds */
    size_t begins;                    /* where the record that is being gathered begins */
    size_t met;                       /* the kinds before it, a bit each; 11 for unknown ones */
    size_t state;                     /* 0: no answer yet; 1: accepted; 2: refused */
    size_t number;                    /* of a refusal, bits 0 to 15 of its word; otherwise 0 */
    size_t beside;                    /* of a refusal; otherwise 0 */
    size_t place;                     /* likewise */
    size_t profile;                   /* NTSKE_USUAL or NTSKE_STRICT */
};

#define NTSKE_CELL(type, field, i) \
    NTSKE_ASSERT(offsetof(struct type, field) == (i) * sizeof(size_t), #type ", " #field)
#define NTSKE_CELLS(type, n) NTSKE_ASSERT(sizeof(struct type) == (n) * sizeof(size_t), #type)
NTSKE_CELLS(ntske_range, 2);
NTSKE_CELL(ntske_range, start, 0);
NTSKE_CELL(ntske_range, len, 1);
NTSKE_CELLS(ntske_request, 10);
NTSKE_CELL(ntske_request, sort, 0);
NTSKE_CELL(ntske_request, key_exchange.protocols, 1);
NTSKE_CELL(ntske_request, key_exchange.algorithms, 3);
NTSKE_CELL(ntske_request, key_exchange.denied, 5);
NTSKE_CELL(ntske_request, fixed_key.authentication, 1);
NTSKE_CELL(ntske_request, fixed_key.c2s, 3);
NTSKE_CELL(ntske_request, fixed_key.s2c, 5);
NTSKE_CELL(ntske_request, fixed_key.algorithm, 7);
NTSKE_CELL(ntske_request, fixed_key.protocol, 8);
NTSKE_CELL(ntske_request, fixed_key.keep_alive, 9);
NTSKE_CELL(ntske_request, support.authentication, 1);
NTSKE_CELL(ntske_request, support.wants_protocols, 3);
NTSKE_CELL(ntske_request, support.wants_algorithms, 4);
NTSKE_CELL(ntske_request, support.keep_alive, 5);
NTSKE_CELLS(ntske_reply, 9);
NTSKE_CELL(ntske_reply, protocol, 0);
NTSKE_CELL(ntske_reply, algorithm, 1);
NTSKE_CELL(ntske_reply, has_server, 2);
NTSKE_CELL(ntske_reply, server, 3);
NTSKE_CELL(ntske_reply, has_port, 5);
NTSKE_CELL(ntske_reply, port, 6);
NTSKE_CELL(ntske_reply, keep_alive, 7);
NTSKE_CELL(ntske_reply, cookies, 8);
NTSKE_CELLS(ntske_record, 7);
NTSKE_CELL(ntske_record, kind, 0);
NTSKE_CELL(ntske_record, critical, 1);
NTSKE_CELL(ntske_record, number, 2);
NTSKE_CELL(ntske_record, body, 3);
NTSKE_CELL(ntske_record, second, 5);
NTSKE_CELLS(ntske_record_read, 8);
NTSKE_CELL(ntske_record_read, record, 0);
NTSKE_CELL(ntske_record_read, next, 7);
NTSKE_CELLS(ntske_listed, 3);
NTSKE_CELL(ntske_listed, there, 0);
NTSKE_CELL(ntske_listed, number, 1);
NTSKE_CELL(ntske_listed, key_size, 2);
NTSKE_CELLS(ntske_choice, 2);
NTSKE_CELL(ntske_choice, protocol, 0);
NTSKE_CELL(ntske_choice, algorithm, 1);
NTSKE_CELLS(ntske_plan, 8);
NTSKE_CELL(ntske_plan, protocol, 0);
NTSKE_CELL(ntske_plan, algorithm, 1);
NTSKE_CELL(ntske_plan, has_port, 2);
NTSKE_CELL(ntske_plan, port, 3);
NTSKE_CELL(ntske_plan, has_name, 4);
NTSKE_CELL(ntske_plan, name_len, 5);
NTSKE_CELL(ntske_plan, keep_alive, 6);
NTSKE_CELL(ntske_plan, used, 7);
NTSKE_CELLS(ntske_connection, 9);
NTSKE_CELL(ntske_connection, limit, 0);
NTSKE_CELL(ntske_connection, gathered, 1);
NTSKE_CELL(ntske_connection, begins, 2);
NTSKE_CELL(ntske_connection, met, 3);
NTSKE_CELL(ntske_connection, state, 4);
NTSKE_CELL(ntske_connection, number, 5);
NTSKE_CELL(ntske_connection, beside, 6);
NTSKE_CELL(ntske_connection, place, 7);
NTSKE_CELL(ntske_connection, profile, 8);
#define NTSKE_CELL16(type, field, i) \
    NTSKE_ASSERT(offsetof(struct type, field) == (i) * sizeof(uint16_t), #type ", " #field)
#define NTSKE_CELLS16(type, n) NTSKE_ASSERT(sizeof(struct type) == (n) * sizeof(uint16_t), #type)
NTSKE_CELLS16(ntske_seen, 3);
NTSKE_CELL16(ntske_seen, count, 0);
NTSKE_CELL16(ntske_seen, start, 1);
NTSKE_CELL16(ntske_seen, len, 2);
NTSKE_CELLS16(ntske_finding, 48);
NTSKE_CELL16(ntske_finding, limit, 0);
NTSKE_CELL16(ntske_finding, place, 1);
NTSKE_CELL16(ntske_finding, reason, 2);
NTSKE_CELL16(ntske_finding, found, 3);
#undef NTSKE_CELL
#undef NTSKE_CELLS
#undef NTSKE_CELL16
#undef NTSKE_CELLS16
#undef NTSKE_ASSERT

/* ---- what a call returned -------------------------------------------------------------------- */

/* The refusal's number, and 0 for none. NTSKE_WAITING is to be told apart before. */
static inline unsigned ntske_refusal(uint64_t answer) { return (unsigned)(answer & 0xFF); }

/*
 * What the number beside it is: of 5 an algorithm, of 11 and 12 a code, and of 17 the protocol or
 * the algorithm that was not offered, which the word tells apart. NTSKE_BESIDE_NONE of all others,
 * and of a 17 that does not tell it, which no call returns.
 */
static inline enum ntske_beside_sorts ntske_beside_sort(uint64_t answer)
{
    unsigned sort = (unsigned)(answer >> 8 & 0xFF);
    switch (ntske_refusal(answer)) {
    case NTSKE_AEAD_NOT_SUPPORTED:
        return NTSKE_BESIDE_ALGORITHM;
    case NTSKE_ERROR:
    case NTSKE_UNKNOWN_WARNING:
        return NTSKE_BESIDE_CODE;
    case NTSKE_NOT_OFFERED:
        if (sort == NTSKE_BESIDE_PROTOCOL)
            return NTSKE_BESIDE_PROTOCOL;
        return sort == NTSKE_BESIDE_ALGORITHM ? NTSKE_BESIDE_ALGORITHM : NTSKE_BESIDE_NONE;
    default:
        return NTSKE_BESIDE_NONE;
    }
}

/* Whether a number is beside it. */
static inline int ntske_has_beside(uint64_t answer)
{
    return ntske_beside_sort(answer) != NTSKE_BESIDE_NONE;
}

/* That number, and 0 for none. */
static inline unsigned ntske_beside(uint64_t answer) { return (unsigned)(answer >> 16 & 0xFFFF); }

/*
 * Of a refusal of a request's or a reply's reader, whole, in two calls or in pieces, the place of
 * the first byte of the record concerned, which is the end record where it is decided after the
 * end; of 16 the place of the byte that has no room, and of 18 for a byte after the end record that
 * byte's. Otherwise 0.
 */
static inline unsigned long ntske_place(uint64_t answer) { return (unsigned long)(answer >> 32); }

/*
 * What a call returned, in words, without the number beside it and the place. Of 17 they tell
 * whether it is the protocol or the algorithm.
 */
static inline const char *ntske_words(uint64_t answer)
{
    static const char *const words[] = {
        "accepted",
        "bytes are missing",
        "a body is ill-formed",
        "an unknown record has its critical bit set",
        "the set of records is not allowed",
        "the algorithm is not 15 or 17",
        "a key half has the wrong length",
        "more names or cookies than the table or the plan holds",
        "a body to write is longer than 65,535 bytes",
        "the value is no record, plan, tray, connection or finding",
        "the output is too short",
        "the reply has an error record",
        "the reply has a warning record",
        "no protocol in common",
        "no algorithm in common",
        "no cookie",
        "the buffer has no room for a byte that the read needs",
        "the reply names what was not offered",
        "the strict profile does not allow the record, or the byte after the end",
    };
    static const char *const not_offered[] = {
        "the reply's protocol was not offered",
        "the reply's algorithm was not offered",
    };
    unsigned n = ntske_refusal(answer);
    if (answer == NTSKE_WAITING)
        return "the read waits for more bytes";
    if (n == NTSKE_NOT_OFFERED && ntske_has_beside(answer))
        return not_offered[ntske_beside_sort(answer) == NTSKE_BESIDE_ALGORITHM];
    return n < sizeof words / sizeof *words ? words[n] : "a refusal that this header does not know";
}

/*
 * The code of the error record with which a server answers a request that was refused so: 0 for 3;
 * 1 for what is the client's fault (1, 2, 4, 5, 6, 18); 2 for what is the server's own (7 and 16,
 * since its table or its buffer is too small, and any other number, 0 too). The replies to 13 and
 * 14 are no errors: they are those of ntske_write_no_protocol and ntske_write_no_algorithm.
 */
static inline uint16_t ntske_error_code(uint64_t answer)
{
    switch (ntske_refusal(answer)) {
    case NTSKE_UNRECOGNIZED_CRITICAL_RECORD:
        return NTSKE_CODE_UNRECOGNIZED_CRITICAL_RECORD;
    case NTSKE_UNEXPECTED_EOF:
    case NTSKE_INVALID_DATA:
    case NTSKE_INVALID:
    case NTSKE_AEAD_NOT_SUPPORTED:
    case NTSKE_INCORRECT_SIZED_KEY:
    case NTSKE_NOT_ALLOWED:
        return NTSKE_CODE_BAD_REQUEST;
    default:
        return NTSKE_CODE_INTERNAL_SERVER_ERROR;
    }
}

/*
 * The exporter's context (section 5.1) for the key from client to server (s2c 0) or from server to
 * client (s2c 1): protocol and algorithm, the high byte first, and which key it is. With it and
 * NTSKE_EXPORTER_LABEL, TLS exports as many bytes as ntske_key_length tells.
 */
static inline void ntske_context(uint16_t protocol, uint16_t algorithm, int s2c,
                                 uint8_t context[NTSKE_CONTEXT_LEN])
{
    context[0] = (uint8_t)(protocol >> 8);
    context[1] = (uint8_t)(protocol & 0xFF);
    context[2] = (uint8_t)(algorithm >> 8);
    context[3] = (uint8_t)(algorithm & 0xFF);
    context[4] = s2c ? 1 : 0;
}

/* The version of the archive that was linked, as NTSKE_VERSION. */
uint64_t ntske_version(void);

/* ---- reading ----------------------------------------------------------------------------------
 *
 * A message is read as if it were cut after `limit` bytes, through its first end record; what
 * follows is not looked at, but for whether a byte does in the strict profile. A table has two
 * cells a name or cookie, start and length, in the message's order; cells past the last one stay as
 * they are.
 *
 * 1 does not say that more bytes would help, nor another number that they would not. So a host that
 * takes a message off a line does not call these again and again: it reads in pieces.
 */

/*
 * A request. The names that a client denies in a key exchange go into the table; for the other
 * sorts it stays as it is. Refusals: 1 to 7, at a place; 7 for more names than the table has pairs
 * of cells.
 */
uint64_t ntske_read_request(const uint8_t *message, size_t message_len, uint16_t limit,
                            uint16_t *table, size_t table_len, struct ntske_request *answer);

/*
 * A reply to a key-exchange request; its cookies go into the table. `protocols` and `algorithms`
 * are what the client offered in its request, in any order; a list may have a number twice, or be
 * empty, and then every number is 17. Refusals: 1 to 4, 7 for more cookies than the table has pairs
 * of cells, 11 to 15, and 17 for a protocol or an algorithm that is not among those offered, at a
 * place. What is decided after the end record, in this order: 4 without a list of protocols; 13 for
 * an empty one; 4 without a list of algorithms; 14 for an empty one; 17 for the protocol; 17 for
 * the algorithm; 15; 7.
 */
uint64_t ntske_read_reply(const uint8_t *message, size_t message_len, uint16_t limit,
                          const uint16_t *protocols, size_t protocols_len,
                          const uint16_t *algorithms, size_t algorithms_len, uint16_t *table,
                          size_t table_len, struct ntske_reply *answer);

/*
 * A request and a reply in the strict profile, which takes only what RFC 8915 allows. Kinds 8 to 14
 * are unknown in it: passed over with their bit clear, 3 with it set, whatever their body holds. So
 * a request is a key exchange without denied names, its table stays as it is, and a reply tells no
 * keep-alive. 18, at a place, is for a record of kind 0, 1, 2 or 3 without its critical bit, an end
 * record with a body, and a server name with a byte above 7F, after 1 and 2 of that record and
 * before what it means (3, 4, 11, 12); and for a byte that follows the end record inside the limit,
 * at that byte's place, before all that is decided after the end. All else is as above. Refusals:
 * of a request 1 to 4 and 18; of a reply 18 and those of ntske_read_reply.
 */
uint64_t ntske_read_request_strict(const uint8_t *message, size_t message_len, uint16_t limit,
                                   uint16_t *table, size_t table_len,
                                   struct ntske_request *answer);
uint64_t ntske_read_reply_strict(const uint8_t *message, size_t message_len, uint16_t limit,
                                 const uint16_t *protocols, size_t protocols_len,
                                 const uint16_t *algorithms, size_t algorithms_len,
                                 uint16_t *table, size_t table_len, struct ntske_reply *answer);

/*
 * The record at a place of a message, which has no limit but its length. Its critical bit is told
 * as it was received, of every kind. Refusals: 1 and 2, at the place that was asked for, which the
 * word does not tell.
 */
uint64_t ntske_read_record(const uint8_t *message, size_t message_len, size_t place,
                           struct ntske_record_read *answer);

/*
 * The critical bit that document 01 names for a kind, which is the one that ntske_write_record
 * writes: NTSKE_BIT_SET for 0 to 4, 6, 7, 9, 10 and 12; NTSKE_BIT_CLEAR for 5, 8, 13 and 14; and
 * NTSKE_BIT_GIVEN for every other number, since an unknown kind has none of its own. Refuses
 * nothing. On reading, the bit of a known kind does not count, but for kinds 0 to 3 in the strict
 * profile. Where a sender forgot or added it:
 *
 *     struct ntske_record_read read;
 *     size_t place = 0;
 *     uint64_t answer;
 *     do {
 *         answer = ntske_read_record(message, len, place, &read);
 *         if (answer != NTSKE_OK)
 *             break;
 *         uint64_t named = ntske_bit_named((uint16_t)read.record.kind);
 *         if (named != NTSKE_BIT_GIVEN && named != read.record.critical)
 *             printf("%zu: kind %zu %s\n", place, read.record.kind,
 *                    named == NTSKE_BIT_SET ? "without its critical bit" : "with a critical bit");
 *         place = read.next;
 *     } while (read.record.kind != NTSKE_KIND_END_OF_MESSAGE);
 */
uint64_t ntske_bit_named(uint16_t kind);

/* 1 where the bytes are UTF-8 (RFC 3629), and 0 where they are not. Refuses nothing. */
uint64_t ntske_is_utf8(const uint8_t *bytes, size_t bytes_len);

/*
 * The records of a message as text, a line each, and what ntske_read_request answers for it with
 * room for so many names, as the program kelist prints it (with the limit 65,535 and room for
 * 1,024). NTSKE_LISTING bytes are enough for every message. Refusals: 10.
 */
uint64_t ntske_list(const uint8_t *message, size_t message_len, uint16_t limit, size_t room,
                    uint8_t *out, size_t out_len, size_t *written);

/* ---- reading and deciding ---------------------------------------------------------------------
 *
 * Reading is one thing, deciding another. ntske_read_request in two calls, for a host that logs
 * which records a request held, also where it is refused:
 *
 *     struct ntske_finding finding;
 *     ntske_walk_request(message, len, NTSKE_LIMIT, &finding);
 *     printf("%u names denied, %u unknown records, stopped at %u\n",
 *            finding.found[NTSKE_FOUND_NTP_SERVER_DENY].count,
 *            finding.found[NTSKE_FOUND_UNKNOWN].count, finding.place);
 *     answer = ntske_decide_request(&finding, message, len, table, TABLE_LEN, &request);
 *
 * The walk goes from record to record until the end record, or one that is refused with 1, 2, 3 or
 * 4, and tells how many of each kind there were. The end record counts, and so does a record that
 * is refused with 3 or 4; one that does not read, which is refused with 1 or 2, does not. Unknown
 * ones, kind 11 and 15 to 32,767, count together. So the counts add up to the records that
 * ntske_list shows. Where the walk stopped at the end record, the decision may still refuse, with 4
 * to 7.
 *
 * The pair answers as ntske_read_request, for every message, limit and table. The second call does
 * not trust the finding: it walks once more, which ntske_read_request does not pay for.
 */

/*
 * Walks over a message as if it were cut after `limit` bytes, and tells what it found, whether the
 * request would be accepted or not. Refuses nothing.
 */
uint64_t ntske_walk_request(const uint8_t *message, size_t message_len, uint16_t limit,
                            struct ntske_finding *finding);

/*
 * Decides from a finding: answers what ntske_read_request answers under the finding's limit, with
 * the table as that leaves it. Refusals: 9 (its place is 0), before all others and changing
 * nothing, for a finding that is not what ntske_walk_request gives over the lent message under the
 * finding's own limit; then 1 to 7, at a place. So a number that was changed is 9, and another
 * message's finding, unless the walk gives just that: under another limit that cuts nothing it
 * does, or over a message that differs only in what bodies hold or behind the end record.
 */
uint64_t ntske_decide_request(const struct ntske_finding *finding, const uint8_t *message,
                              size_t message_len, uint16_t *table, size_t table_len,
                              struct ntske_request *answer);

/* ---- reading in pieces ------------------------------------------------------------------------
 *
 * A read that is fed as the line delivers:
 *
 *     struct ntske_connection line;
 *     ntske_connection_new(NTSKE_LIMIT, &line);
 *     do {
 *         got = ..                             (take bytes off the line: none where it closed)
 *         if (got > 0)
 *             answer = ntske_feed_request(&line, piece, got, buffer, BUFFER_LEN, table, TABLE_LEN,
 *                                         &request);
 *         else
 *             answer = ntske_close_request(&line, buffer, BUFFER_LEN, table, TABLE_LEN, &request);
 *     } while (answer == NTSKE_WAITING);
 *
 * The host keeps a connection and a buffer for each line, and lends both to the next call as the
 * last one left them; the table and the piece may be others each time. A piece may have any length,
 * 0 too, and need not be kept: what is needed of it is copied behind what the buffer holds. The
 * calls of a reply are lent what the client offered, too; only the call which answers looks at it.
 *
 * A record is judged when it stands whole, or when the limit or the close cuts it, and not before.
 * Until one decides, a call returns NTSKE_WAITING. The answer, unless it is 16, is that of
 * ntske_read_request or ntske_read_reply on all pieces joined, with the table and the offered lists
 * that are lent to the call which answers; its parts lie in the buffer. Where it is accepted, the
 * message is the first `gathered` bytes of the buffer, which are the joined bytes through the end
 * record.
 *
 * A call that feeds or closes may change buffer and connection also where it waits or is refused.
 * The buffer then begins with the joined bytes, through the record that decides or until it is
 * full, and no byte behind them changes. The table and `answer` change only where a call is
 * accepted. Once there is an answer, every later call gives it again and changes nothing but
 * `answer`: an accepted one whatever the table is that is lent then, which it does not fill again;
 * a refusal also where a larger table or buffer is lent; and either whatever lists are lent.
 *
 * Besides those of the reader there are two refusals. 16: a byte has come that the read needs, and
 * the buffer has no room for it; its place is that byte's, the buffer's length. With a buffer as
 * long as the limit there is none. 9, first of all and changing nothing: the cells are no
 * connection, or one that counts more bytes than the buffer has or the limit allows. That a line
 * which began as a request's is not fed on as a reply's is the host's affair.
 *
 * A connection that was made by ntske_connection_new_strict is read in the strict profile by the
 * same calls, and the answer is that of ntske_read_request_strict or ntske_read_reply_strict. Since
 * no byte may follow its end record, such a read waits once more when that stands whole and nothing
 * was refused: it answers at the close, at once where the end record ends at the limit, or when a
 * byte inside the limit follows, with 18. That byte is not stored, and is never 16.
 */

/*
 * A read of a message that is cut after `limit` bytes, in the usual profile and in the strict one.
 * Refuse nothing.
 */
uint64_t ntske_connection_new(uint16_t limit, struct ntske_connection *connection);
uint64_t ntske_connection_new_strict(uint16_t limit, struct ntske_connection *connection);

/*
 * A piece of a request, and the close of its line, after which the read waits no more. Refusals: 9
 * (its place is 0); 16 and 1 to 7, or in the strict profile 16, 1 to 4 and 18, at a place; and the
 * one that the connection holds.
 */
uint64_t ntske_feed_request(struct ntske_connection *connection, const uint8_t *piece,
                            size_t piece_len, uint8_t *buffer, size_t buffer_len, uint16_t *table,
                            size_t table_len, struct ntske_request *answer);
uint64_t ntske_close_request(struct ntske_connection *connection, uint8_t *buffer,
                             size_t buffer_len, uint16_t *table, size_t table_len,
                             struct ntske_request *answer);

/*
 * The same of a reply, with what the client offered. Refusals: 9 (its place is 0), 1 to 4, 7, 11 to
 * 17 and, in the strict profile, 18, at a place; and the one that the connection holds.
 */
uint64_t ntske_feed_reply(struct ntske_connection *connection, const uint8_t *piece,
                          size_t piece_len, const uint16_t *protocols, size_t protocols_len,
                          const uint16_t *algorithms, size_t algorithms_len, uint8_t *buffer,
                          size_t buffer_len, uint16_t *table, size_t table_len,
                          struct ntske_reply *answer);
uint64_t ntske_close_reply(struct ntske_connection *connection, const uint16_t *protocols,
                           size_t protocols_len, const uint16_t *algorithms,
                           size_t algorithms_len, uint8_t *buffer, size_t buffer_len,
                           uint16_t *table, size_t table_len, struct ntske_reply *answer);

/* ---- handing out ------------------------------------------------------------------------------
 *
 * These refuse nothing. What a reader answered lies inside its message, so the host may also take
 * `message + part.start` itself; they are for numbers of other origin.
 */

/* A part as it is handed out: the same, and 0 and 0 where it is not inside the message. */
uint64_t ntske_part(const uint8_t *message, size_t message_len, size_t start, size_t len,
                    struct ntske_range *answer);

/*
 * The name or cookie at an index of a table, handed out as ntske_part does. How many there are only
 * the reader's count says: past it the cells are what they were before the reader's call. A cell
 * past the table's end counts as 0, so an index past the table gives 0 and 0, and one at the last
 * cell of an odd number of them gives a part of length 0.
 */
uint64_t ntske_entry(const uint8_t *message, size_t message_len, const uint16_t *table,
                     size_t table_len, size_t index, struct ntske_range *answer);

/*
 * The number at an index of a list of protocols or algorithms, which is a part of a message. A list
 * that is not inside the message has none, and what is left over at a list's end counts as none.
 */
uint64_t ntske_number(const uint8_t *message, size_t message_len, size_t start, size_t len,
                      size_t index, struct ntske_listed *answer);

/* The algorithm and its key size at an index of a list of such pairs, likewise. */
uint64_t ntske_pair(const uint8_t *message, size_t message_len, size_t start, size_t len,
                    size_t index, struct ntske_listed *answer);

/* ---- choosing -------------------------------------------------------------------------------- */

/*
 * Of each of the client's two lists, as bytes of its message, the first number that the server's
 * own list holds. Refusals: 9 for a client's list of an odd length; then 13; then 14.
 */
uint64_t ntske_choose(const uint8_t *protocols, size_t protocols_len, const uint8_t *algorithms,
                      size_t algorithms_len, const uint16_t *own_protocols,
                      size_t own_protocols_len, const uint16_t *own_algorithms,
                      size_t own_algorithms_len, struct ntske_choice *answer);

/*
 * The protocol alone, which the reply to 14 names. Refusals: 9 for a client's list of an odd
 * length; then 13.
 */
uint64_t ntske_choose_protocol(const uint8_t *protocols, size_t protocols_len,
                               const uint16_t *own_protocols, size_t own_protocols_len,
                               size_t *answer);

/* The length of an algorithm's key in bytes. Refusals: 5, with its number, but for 15 and 17. */
uint64_t ntske_key_length(uint16_t algorithm, size_t *answer);

/* ---- the plan of a reply ----------------------------------------------------------------------
 *
 * A tray is a buffer of the host's that holds fields, one behind the other: a tag, a length in two
 * bytes, the high byte first, and a body. So each takes NTSKE_FIELD_HEADER bytes more than its
 * body. The plan's tray holds the cookies of the reply.
 */

/* A plan with a protocol and an algorithm, and nothing else. Refuses nothing. */
uint64_t ntske_plan_new(uint16_t protocol, uint16_t algorithm, struct ntske_plan *plan);

/* Refusals of these six: 9 for what is no plan. */
uint64_t ntske_plan_set_port(struct ntske_plan *plan, uint16_t port);
uint64_t ntske_plan_clear_port(struct ntske_plan *plan);
uint64_t ntske_plan_set_name_length(struct ntske_plan *plan, uint16_t length);
uint64_t ntske_plan_clear_name_length(struct ntske_plan *plan);
uint64_t ntske_plan_set_keep_alive(struct ntske_plan *plan);
uint64_t ntske_plan_clear_keep_alive(struct ntske_plan *plan);

/*
 * A cookie more, behind the used part of the tray, of which only that field's bytes change.
 * Refusals: 9 for what is no plan, and for a tray whose used part is cut, exceeds it, or holds
 * anything but at most eight cookies; then 8; 7 for the ninth; 10 for no room.
 */
uint64_t ntske_plan_append(struct ntske_plan *plan, const uint8_t *cookie, size_t cookie_len,
                           uint8_t *tray, size_t tray_len);

/*
 * How long the reply will be, also where there is no cookie yet. Refusals: 9 for what is no plan,
 * or a tray that is broken as above.
 */
uint64_t ntske_plan_length(const struct ntske_plan *plan, const uint8_t *tray, size_t tray_len,
                           size_t *length);

/* ---- writing ----------------------------------------------------------------------------------
 *
 * Each writer puts its message at the front of `out`, changes no byte behind it, and answers how
 * many bytes it wrote. 10 is for an output shorter than that, 8 for a body that would be longer
 * than 65,535 bytes.
 */

/*
 * The reply that a plan is for, with the server's name (of length 0 where none is planned).
 * Refusals: 9 for what is no plan, a broken tray, a name of another length than planned or that is
 * not UTF-8; then 15 for a tray without a cookie; then 10.
 */
uint64_t ntske_write_reply(const struct ntske_plan *plan, const uint8_t *tray, size_t tray_len,
                           const uint8_t *server, size_t server_len, uint8_t *out, size_t out_len,
                           size_t *written);

/*
 * The replies that no protocol is agreed on, that a protocol is but no algorithm, and that there is
 * an error: 8, 14 and 10 bytes long. Refusals: 10.
 */
uint64_t ntske_write_no_protocol(uint8_t *out, size_t out_len, size_t *written);
uint64_t ntske_write_no_algorithm(uint16_t protocol, uint8_t *out, size_t out_len,
                                  size_t *written);
uint64_t ntske_write_error(uint16_t code, uint8_t *out, size_t out_len, size_t *written);

/*
 * A support reply, and its exact length. `asked` is a sum of NTSKE_ALGORITHMS, NTSKE_PROTOCOLS and
 * NTSKE_KEEP_ALIVE, or 0; a pair is two cells, an algorithm and its key size. Refusals: 9 for
 * another number, or an odd number of cells of pairs; then 8 for a list that is to be written;
 * then, of the writer, 10.
 */
uint64_t ntske_write_support_reply(uint8_t asked, const uint16_t *pairs, size_t pairs_len,
                                   const uint16_t *protocols, size_t protocols_len, uint8_t *out,
                                   size_t out_len, size_t *written);
uint64_t ntske_support_reply_length(uint8_t asked, const uint16_t *pairs, size_t pairs_len,
                                    const uint16_t *protocols, size_t protocols_len,
                                    size_t *length);

/*
 * A denied name more in the tray of a request, behind the `*used` bytes of it (0 before the first),
 * which count that field too afterwards; of the tray only that field's bytes change. Refusals: 9
 * for a tray whose used part is cut, exceeds it or holds anything but denied names, or for a name
 * that is not UTF-8; then 8; then 10 for no room.
 */
uint64_t ntske_append_denied(const uint8_t *name, size_t name_len, uint8_t *tray, size_t tray_len,
                             size_t *used);

/*
 * A key-exchange request with the names of a tray, and its exact length. Refusals: 9 for a tray
 * that is broken as above or holds a name that is not UTF-8; then 8 for a list; then, of the
 * writer, 10.
 */
uint64_t ntske_write_request(const uint16_t *protocols, size_t protocols_len,
                             const uint16_t *algorithms, size_t algorithms_len,
                             const uint8_t *tray, size_t tray_len, size_t used, uint8_t *out,
                             size_t out_len, size_t *written);
uint64_t ntske_request_length(const uint16_t *protocols, size_t protocols_len,
                              const uint16_t *algorithms, size_t algorithms_len,
                              const uint8_t *tray, size_t tray_len, size_t used, size_t *length);

/*
 * One record, and its exact length; its parts lie in `source`. The critical bit of a known kind is
 * the one that ntske_bit_named tells, `critical` being 0 or 1; of an unknown kind it is `critical`.
 * So writing what was read gives the same bytes exactly if the bit received is the one named, or
 * the kind is unknown, and the body of an end or a keep-alive record was empty. Refusals: 9 for a
 * kind above 32,767 and, whatever the kind is, a `critical` that is neither 0 nor 1 or a `number`
 * above 65,535; for a part that is not inside the source, a list of an odd length, pairs whose
 * length is no multiple of 4, a name that is not UTF-8, keys of unequal length; then 8; then, of
 * the writer, 10.
 */
uint64_t ntske_write_record(const struct ntske_record *item, const uint8_t *source,
                            size_t source_len, uint8_t *out, size_t out_len, size_t *written);
uint64_t ntske_record_length(const struct ntske_record *item, const uint8_t *source,
                             size_t source_len, size_t *length);

#ifdef __cplusplus
}
#endif

#endif
