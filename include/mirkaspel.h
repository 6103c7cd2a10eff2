/* Mirkaspel's acceptor and proposer for C: libmirkaspel.a (`tests/build-library`, x86-64).

   What is proved. Each function meets the contract in crates/mirkaspel_c/src/lib.rt for every number and byte that is lent: it traps on
   nothing, ends, and its answer, and every byte of every area, is what document 01's rules say. This header is not part of the proof:
   nothing checks it against that file but the example that is built and run by the tests.

   What the caller owes.
   - No pointer is null, also where a length is 0, and each points to at least as many elements as said; the areas of a call do not overlap.
     Pointers to 16-bit and 64-bit numbers are aligned as C aligns them.
   - One call at a time on an area, and nobody else changes the area between calls.
   - Times are milliseconds of one clock.
   - An acceptor's changed table is stored before its answer is sent.

   Who owns what. The caller owns every area, before, during and after a call; the library keeps no pointer, has no state of its own, and
   asks for no memory. docs/LAYOUT.md has the areas byte by byte. */
#ifndef MIRKASPEL_H
#define MIRKASPEL_H

#include <stddef.h>
#include <stdint.h>

#ifdef __cplusplus
extern "C" {
#endif

/* ---- limits and sizes, in bytes ---- */

#define MIRKASPEL_KEY_MOST 64
#define MIRKASPEL_VALUE_MOST 256
#define MIRKASPEL_LIST_MOST 15
#define MIRKASPEL_REGISTERS_MOST 1024
#define MIRKASPEL_PENDING_MOST 32

/* An acceptor's table of n registers, 1 to MIRKASPEL_REGISTERS_MOST. A fresh table is zeros. */
#define MIRKASPEL_BLOCK 512
#define MIRKASPEL_TABLE(n) (MIRKASPEL_BLOCK * (size_t)(n))
/* The area into which an acceptor puts the value of its answer. */
#define MIRKASPEL_ACCEPTOR_SENT 256
/* A proposer's area of n pending requests, 1 to MIRKASPEL_PENDING_MOST. mirkaspel_proposer_start fills it. */
#define MIRKASPEL_AREA(n) (80 + 976 * (size_t)(n))
/* The area into which a proposer puts the bytes of its answer: the value from byte 0, the key, the addresses that a broadcast goes to (two
   bytes each, low byte first), and the rows of timeouts (a client's two bytes, then an id's eight). */
#define MIRKASPEL_PROPOSER_SENT(n) (350 + 10 * (size_t)(n))
#define MIRKASPEL_KEY_AT 256
#define MIRKASPEL_ENTRIES_AT 320
#define MIRKASPEL_ROWS_AT 350
#define MIRKASPEL_ROW 10

/* Fields of a register's block, for reading: a used block has 1 in byte 0. Numbers are little-endian. */
#define MIRKASPEL_BLOCK_KEY_LEN 1
#define MIRKASPEL_BLOCK_HAS_VALUE 2
#define MIRKASPEL_BLOCK_VALUE_LEN 4
#define MIRKASPEL_BLOCK_SEEN 8
#define MIRKASPEL_BLOCK_ACCEPTED 16
#define MIRKASPEL_BLOCK_KEY 24
#define MIRKASPEL_BLOCK_VALUE 88

/* ---- a message ---- */

enum mirkaspel_kind {
    MIRKASPEL_CLIENT_REQUEST = 1,       /* number: id; request; key; Set: value; Cas: value (old) and other (new) */
    MIRKASPEL_CLIENT_RESPONSE = 2,      /* number: id; result; Ok: value; CasFailed: other */
    MIRKASPEL_SET_ACCEPT_ACCEPTORS = 3, /* list */
    MIRKASPEL_SET_PROPOSE_ACCEPTORS = 4, /* list */
    MIRKASPEL_PROPOSE_REQ = 5,          /* number: ballot; key */
    MIRKASPEL_PROPOSE_RES = 6,          /* number: ballot; accepted; value; result */
    MIRKASPEL_ACCEPT_REQ = 7,           /* number: ballot; key; value */
    MIRKASPEL_ACCEPT_RES = 8            /* number: ballot; result */
};

enum mirkaspel_request { MIRKASPEL_GET = 1, MIRKASPEL_DEL = 2, MIRKASPEL_SET = 3, MIRKASPEL_CAS = 4 };

enum mirkaspel_result {
    MIRKASPEL_OK = 0,
    MIRKASPEL_PROPOSAL_REJECTED = 1, /* last */
    MIRKASPEL_ACCEPT_REJECTED = 2,   /* last */
    MIRKASPEL_CAS_FAILED = 3,        /* other: the promised value */
    MIRKASPEL_TIMEOUT = 4
};

/* A message without its bytes, which are lent beside it. A number that the kind has no use for is not looked at, and is 0 in an answer. A
   kind, request or result that is not listed above makes a message that is for neither party (refusal 3). */
struct mirkaspel_message {
    uint64_t kind;     /* enum mirkaspel_kind */
    uint64_t number;   /* a client's id, or the ballot */
    uint64_t request;  /* enum mirkaspel_request */
    uint64_t value;    /* whether there is a value: 0 for none, which differs from an empty value */
    uint64_t other;    /* the same of the other value */
    uint64_t accepted; /* the accepted ballot */
    uint64_t result;   /* enum mirkaspel_result */
    uint64_t last;     /* the ballot of a rejection */
};

/* ---- an answer ---- */

enum mirkaspel_answer_kind {
    MIRKASPEL_NOTHING = 0,
    MIRKASPEL_MESSAGE = 1,   /* message, with value_len bytes of value, goes to `to` */
    MIRKASPEL_BROADCAST = 2, /* message, with value_len bytes of value and key_len bytes of key, goes to each of `entries` addresses */
    MIRKASPEL_TIMEOUTS = 3   /* `rows` clients are told Timeout */
};

/* Unchanged by a refusal; else every field is set, and those that the kind has no use for are 0. The value of an answer stands at the front of
   the answer area, also where it is the value of a CasFailed. */
struct mirkaspel_answer {
    uint64_t kind; /* enum mirkaspel_answer_kind */
    uint64_t to;
    uint64_t entries;
    uint64_t rows;
    uint64_t value_len;
    uint64_t key_len;
    struct mirkaspel_message message;
};

/* ---- refusals: what each function returns, 0 for none. After a refusal nothing is to be sent and no lent byte has moved. ---- */

enum mirkaspel_refusal {
    MIRKASPEL_AREA_SIZE = 1,        /* a lent area isn't the size for its capacity, or the capacity is outside the limits */
    MIRKASPEL_DAMAGED = 2,          /* a block is neither free nor good, two blocks hold the key, or an area is no image of a state */
    MIRKASPEL_WRONG_KIND = 3,       /* the kind isn't for this party */
    MIRKASPEL_OVER_LIMIT = 4,       /* key, value or list too long, or address 0 */
    MIRKASPEL_FIRST_PHASE = 5,      /* AcceptRes for a request in its first phase */
    MIRKASPEL_REPEATED = 6,         /* the sender has answered in this phase */
    MIRKASPEL_NOT_WAITED_FOR = 7,   /* the sender isn't waited for */
    MIRKASPEL_FOREIGN_ERROR = 8,    /* an error of another kind than the phase has */
    MIRKASPEL_PROMISED_ABOVE = 9,   /* Ok promise while the request's ballot isn't above the highest promised */
    MIRKASPEL_COUNTER_USED_UP = 10, /* a new ballot is needed and the counter is used up */
    MIRKASPEL_NO_ROOM = 11,         /* a block or a pending place is needed and none is free */
    MIRKASPEL_CLOCK_BACK = 12       /* a tick earlier than some pending arrival */
};

/* ---- the operations ---- */

/* A message at an acceptor, from an address, on its table. Refusals 1, 2, 3, 4 and 11. */
uint8_t mirkaspel_acceptor_receive(
    uint8_t *table, size_t table_len, size_t registers, uint16_t from, const struct mirkaspel_message *message,
    const uint8_t *key, size_t key_len, const uint8_t *value, size_t value_len, const uint8_t *other, size_t other_len,
    const uint16_t *list, size_t list_len, uint8_t *sent, size_t sent_len, struct mirkaspel_answer *answer);

/* A proposer's start: counter 0, nothing pending, one list as both lists. Refusals 1 and 4. */
uint8_t mirkaspel_proposer_start(
    uint8_t *area, size_t area_len, size_t places, uint64_t timeout, const uint16_t *list, size_t list_len);

/* A message at a proposer, from an address, at a time. Refusals 1 to 11. */
uint8_t mirkaspel_proposer_receive(
    uint8_t *area, size_t area_len, size_t places, uint16_t from, uint64_t at, const struct mirkaspel_message *message,
    const uint8_t *key, size_t key_len, const uint8_t *value, size_t value_len, const uint8_t *other, size_t other_len,
    const uint16_t *list, size_t list_len, uint8_t *sent, size_t sent_len, struct mirkaspel_answer *answer);

/* A tick at a proposer: requests over time are dropped and their clients told. Refusals 1, 2 and 12. An acceptor's tick does nothing, and has
   no function here. */
uint8_t mirkaspel_proposer_tick(
    uint8_t *area, size_t area_len, size_t places, uint64_t t, uint8_t *sent, size_t sent_len, struct mirkaspel_answer *answer);

#ifdef __cplusplus
}
#endif

#endif
