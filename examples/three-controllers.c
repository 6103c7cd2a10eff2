/* Three controllers carry a valve order, a failed compare and a refusal. The orders go through a proposer at address 20, the controllers 1, 2
   and 3 are its acceptors, and client 9 gives the orders. Every message is passed on at once, in order; the plant of ../plant has a network. */
#include "mirkaspel.h"

#include <stdio.h>
#include <stdlib.h>
#include <string.h>

enum { CONTROLLERS = 3, REGISTERS = 4, PENDING = 2, PROPOSER = 20, CLIENT = 9 };

static uint8_t tables[CONTROLLERS][MIRKASPEL_TABLE(REGISTERS)];
static uint8_t area[MIRKASPEL_AREA(PENDING)];

/* What a message carries beside its numbers. A part that is missing still needs a pointer that isn't null. */
struct bytes {
    const char *text;
    size_t length;
};

static const struct bytes nothing = {"", 0};

static const uint8_t *at(struct bytes b) { return (const uint8_t *)b.text; }

static void fail(const char *where, int refusal) {
    printf("%s was refused: %d\n", where, refusal);
    exit(1);
}

static void show_value(uint64_t present, const uint8_t *value, size_t length) {
    if (present)
        printf("'%.*s'", (int)length, (const char *)value);
    else
        printf("no value");
}

static void show_message(const struct mirkaspel_message *m, const uint8_t *value, size_t length) {
    static const char *const results[] = {"Ok", "ProposalRejected", "AcceptRejected", "CasFailed", "Timeout"};
    switch (m->kind) {
    case MIRKASPEL_PROPOSE_REQ: printf("ProposeReq at ballot %d", (int)m->number); break;
    case MIRKASPEL_ACCEPT_REQ:
        printf("AcceptReq at ballot %d, ", (int)m->number);
        show_value(m->value, value, length);
        break;
    case MIRKASPEL_PROPOSE_RES:
        printf("ProposeRes %s, accepted at %d, ", results[m->result], (int)m->accepted);
        show_value(m->value, value, length);
        break;
    case MIRKASPEL_ACCEPT_RES: printf("AcceptRes %s", results[m->result]); break;
    case MIRKASPEL_CLIENT_RESPONSE:
        printf("order %d: %s, ", (int)m->number, results[m->result]);
        show_value(m->result ? m->other : m->value, value, length);
        break;
    default: printf("kind %d", (int)m->kind);
    }
}

static uint8_t to_proposer(
    uint16_t from, const struct mirkaspel_message *m, struct bytes key, struct bytes value, struct bytes other, uint8_t *sent,
    struct mirkaspel_answer *answer) {
    static const uint16_t no_list[1];
    return mirkaspel_proposer_receive(
        area, sizeof area, PENDING, from, 100, m, at(key), key.length, at(value), value.length, at(other), other.length, no_list, 0, sent,
        MIRKASPEL_PROPOSER_SENT(PENDING), answer);
}

/* What a controller answers, and the bytes of its value. */
struct reply {
    uint16_t controller;
    struct mirkaspel_answer answer;
    uint8_t value[MIRKASPEL_ACCEPTOR_SENT];
};

static void at_controller(const struct mirkaspel_answer *broadcast, const uint8_t *sent, struct reply *reply) {
    static const uint16_t no_list[1];
    int refusal = mirkaspel_acceptor_receive(
        tables[reply->controller - 1], sizeof tables[0], REGISTERS, PROPOSER, &broadcast->message, sent + MIRKASPEL_KEY_AT,
        broadcast->key_len, sent, broadcast->value_len, at(nothing), 0, no_list, 0, reply->value, sizeof reply->value, &reply->answer);
    if (refusal) fail("a message at a controller", refusal);
    printf("  to controller %d: ", reply->controller);
    show_message(&broadcast->message, sent, broadcast->value_len);
    printf("; it answers ");
    show_message(&reply->answer.message, reply->value, reply->answer.value_len);
    printf("\n");
}

/* The proposer's answer is carried out: a client is told, or a broadcast goes to each controller and their answers come back. */
static void carry(const struct mirkaspel_answer *answer, const uint8_t *sent) {
    if (answer->kind == MIRKASPEL_MESSAGE) {
        printf("  client %d is told: ", (int)answer->to);
        show_message(&answer->message, sent, answer->value_len);
        printf("\n");
        return;
    }
    if (answer->kind != MIRKASPEL_BROADCAST) return;
    struct reply replies[MIRKASPEL_LIST_MOST];
    for (uint64_t i = 0; i < answer->entries; i++) {
        const uint8_t *entry = sent + MIRKASPEL_ENTRIES_AT + 2 * i;
        replies[i].controller = (uint16_t)(entry[0] | entry[1] << 8);
        at_controller(answer, sent, &replies[i]);
    }
    for (uint64_t i = 0; i < answer->entries; i++) {
        struct bytes value = {(const char *)replies[i].value, replies[i].answer.value_len};
        uint8_t next[MIRKASPEL_PROPOSER_SENT(PENDING)];
        struct mirkaspel_answer then;
        int refusal = to_proposer(replies[i].controller, &replies[i].answer.message, nothing, value, nothing, next, &then);
        if (refusal) fail("an answer at the proposer", refusal);
        carry(&then, next);
    }
}

static void order(uint64_t id, uint64_t request, struct bytes key, struct bytes value, struct bytes other) {
    struct mirkaspel_message m = {
        .kind = MIRKASPEL_CLIENT_REQUEST, .number = id, .request = request, .value = value.length > 0, .other = other.length > 0};
    uint8_t sent[MIRKASPEL_PROPOSER_SENT(PENDING)];
    struct mirkaspel_answer answer;
    int refusal = to_proposer(CLIENT, &m, key, value, other, sent, &answer);
    if (refusal) fail("an order", refusal);
    carry(&answer, sent);
}

int main(void) {
    static const uint16_t controllers[CONTROLLERS] = {1, 2, 3};
    int refusal = mirkaspel_proposer_start(area, sizeof area, PENDING, 500, controllers, CONTROLLERS);
    if (refusal) fail("the start", refusal);
    struct bytes valve = {"valve 7", 7}, open = {"drive 12 open", 13}, closed = {"drive 12 closed", 15}, half = {"drive 12 half", 13};

    printf("Order 1: valve 7 is set to 'drive 12 open'.\n");
    order(1, MIRKASPEL_SET, valve, open, nothing);
    printf("Order 2: if valve 7 is 'drive 12 half', it becomes 'drive 12 closed'. It is open, so the compare fails.\n");
    order(2, MIRKASPEL_CAS, valve, half, closed);

    printf("Order 3 has a key of 65 bytes: ");
    char long_key[MIRKASPEL_KEY_MOST + 2];
    memset(long_key, 'v', sizeof long_key);
    struct bytes too_long = {long_key, MIRKASPEL_KEY_MOST + 1};
    struct mirkaspel_message set = {.kind = MIRKASPEL_CLIENT_REQUEST, .number = 3, .request = MIRKASPEL_SET};
    uint8_t before[sizeof area], sent[MIRKASPEL_PROPOSER_SENT(PENDING)];
    struct mirkaspel_answer answer;
    memcpy(before, area, sizeof area);
    refusal = to_proposer(CLIENT, &set, too_long, closed, nothing, sent, &answer);
    printf("refusal %d, and the proposer's area is %s.\n", refusal, memcmp(before, area, sizeof area) ? "CHANGED" : "as it was");

    printf("A damaged table: ");
    tables[1][MIRKASPEL_BLOCK_VALUE] ^= 1;
    struct mirkaspel_message ask = {.kind = MIRKASPEL_PROPOSE_REQ, .number = 9};
    static const uint16_t no_list[1];
    uint8_t value[MIRKASPEL_ACCEPTOR_SENT];
    refusal = mirkaspel_acceptor_receive(
        tables[1], sizeof tables[1], REGISTERS, PROPOSER, &ask, at(valve), valve.length, at(nothing), 0, at(nothing), 0, no_list, 0, value,
        sizeof value, &answer);
    printf("controller 2 gives refusal %d.\n", refusal);
    return 0;
}
