/* A plant on one machine: proposers and acceptors are the proved ones of libmirkaspel.a, and the network between them loses, repeats and
   delays frames. Reads a list (samples/plant.list says how one is written) and prints, for each valve, what each controller holds and what
   each client was told. Exit status 1 where two controllers hold two values at one ballot, 2 where the list can't be read. */
#include "mirkaspel.h"

#include <stdarg.h>
#include <stdio.h>
#include <stdlib.h>
#include <string.h>

enum { PARTIES = 15, VALVES = 64, ORDERS = 256, FRAMES = 65536, TEXT = 64, WORDS = 20, PENDING = 8, TICK = 50 };

struct text {
    uint8_t bytes[MIRKASPEL_VALUE_MOST];
    size_t length;
};

struct order {
    uint64_t time, request, valve;
    uint16_t client, proposer;
    struct text value, other;
    uint64_t told_at;
    int told, refusal;
    struct mirkaspel_message reply;
    struct text reply_value;
};

struct frame {
    uint64_t time;
    uint16_t from, to;
    struct mirkaspel_message message;
    struct text key, value, other;
};

struct acceptor {
    uint16_t address;
    uint8_t table[MIRKASPEL_TABLE(VALVES)];
};

struct proposer {
    uint16_t address;
    uint8_t area[MIRKASPEL_AREA(PENDING)];
};

static struct acceptor acceptors[PARTIES];
static struct proposer proposers[PARTIES];
static size_t acceptor_count, proposer_count;
static struct order orders[ORDERS];
static size_t order_count;
static struct frame frames[FRAMES];
static size_t frame_count;
static uint64_t timeout = 500, lost = 0, repeated = 0, late = 0, random_state = 1;
static uint64_t frames_sent, frames_lost, frames_repeated, frames_late, refusals[13];
static const uint16_t no_list[1];

/* ---- the network ---- */

static uint64_t dice(uint64_t sides) {
    random_state ^= random_state << 13;
    random_state ^= random_state >> 7;
    random_state ^= random_state << 17;
    return random_state % sides;
}

static void enqueue(const struct frame *f, uint64_t delay) {
    if (frame_count == FRAMES) {
        fprintf(stderr, "plant: more than %d frames on their way\n", FRAMES);
        exit(2);
    }
    frames[frame_count] = *f;
    frames[frame_count++].time = f->time + delay;
}

/* A frame between two controllers: it takes 2 to 9 ms, a late one up to 400 ms more. */
static void send_frame(const struct frame *f) {
    frames_sent++;
    if (dice(100) < lost) {
        frames_lost++;
        return;
    }
    uint64_t copies = 1;
    if (dice(100) < repeated) {
        frames_repeated++;
        copies = 2;
    }
    for (; copies; copies--) {
        uint64_t delay = 2 + dice(8);
        if (dice(100) < late) {
            frames_late++;
            delay += dice(400);
        }
        enqueue(f, delay);
    }
}

/* The place of the earliest frame; of several at one time the one that was sent first. */
static size_t earliest(void) {
    size_t best = 0;
    for (size_t i = 1; i < frame_count; i++)
        if (frames[i].time < frames[best].time) best = i;
    return best;
}

/* ---- the parties ---- */

static void fill(struct text *t, const uint8_t *bytes, size_t length) {
    memcpy(t->bytes, bytes, length);
    t->length = length;
}

static uint64_t number_at(const uint8_t *bytes, size_t width) {
    uint64_t n = 0;
    while (width--) n = n << 8 | bytes[width];
    return n;
}

static void tell(uint16_t client, uint64_t id, uint64_t time, const struct mirkaspel_message *reply, const uint8_t *value, size_t length) {
    if (id == 0 || id > order_count || orders[id - 1].client != client) return;
    struct order *o = &orders[id - 1];
    o->told++;
    o->told_at = time;
    o->reply = *reply;
    fill(&o->reply_value, value, length);
}

/* The key of a frame that answers one is not sent: an answer is known by its ballot. */
static void at_acceptor(struct acceptor *a, const struct frame *f) {
    uint8_t sent[MIRKASPEL_ACCEPTOR_SENT];
    struct mirkaspel_answer answer;
    int refusal = mirkaspel_acceptor_receive(
        a->table, sizeof a->table, VALVES, f->from, &f->message, f->key.bytes, f->key.length, f->value.bytes, f->value.length, f->other.bytes,
        f->other.length, no_list, 0, sent, sizeof sent, &answer);
    refusals[refusal]++;
    if (refusal || answer.kind != MIRKASPEL_MESSAGE) return;
    struct frame reply = {.time = f->time, .from = a->address, .to = (uint16_t)answer.to, .message = answer.message};
    fill(&reply.value, sent, answer.value_len);
    send_frame(&reply);
}

static void carry_out(const struct proposer *p, uint64_t time, const struct mirkaspel_answer *answer, const uint8_t *sent) {
    if (answer->kind == MIRKASPEL_MESSAGE)
        tell((uint16_t)answer->to, answer->message.number, time, &answer->message, sent, answer->value_len);
    if (answer->kind == MIRKASPEL_BROADCAST)
        for (uint64_t i = 0; i < answer->entries; i++) {
            struct frame f = {.time = time, .from = p->address, .message = answer->message};
            f.to = (uint16_t)number_at(sent + MIRKASPEL_ENTRIES_AT + 2 * i, 2);
            fill(&f.key, sent + MIRKASPEL_KEY_AT, answer->key_len);
            fill(&f.value, sent, answer->value_len);
            send_frame(&f);
        }
    if (answer->kind == MIRKASPEL_TIMEOUTS)
        for (uint64_t i = 0; i < answer->rows; i++) {
            const uint8_t *row = sent + MIRKASPEL_ROWS_AT + MIRKASPEL_ROW * i;
            struct mirkaspel_message m = {.kind = MIRKASPEL_CLIENT_RESPONSE, .number = number_at(row + 2, 8), .result = MIRKASPEL_TIMEOUT};
            tell((uint16_t)number_at(row, 2), m.number, time, &m, sent, 0);
        }
}

static int at_proposer(struct proposer *p, const struct frame *f) {
    uint8_t sent[MIRKASPEL_PROPOSER_SENT(PENDING)];
    struct mirkaspel_answer answer;
    int refusal = mirkaspel_proposer_receive(
        p->area, sizeof p->area, PENDING, f->from, f->time, &f->message, f->key.bytes, f->key.length, f->value.bytes, f->value.length,
        f->other.bytes, f->other.length, no_list, 0, sent, sizeof sent, &answer);
    refusals[refusal]++;
    if (!refusal) carry_out(p, f->time, &answer, sent);
    return refusal;
}

static void tick(struct proposer *p, uint64_t time) {
    uint8_t sent[MIRKASPEL_PROPOSER_SENT(PENDING)];
    struct mirkaspel_answer answer;
    int refusal = mirkaspel_proposer_tick(p->area, sizeof p->area, PENDING, time, sent, sizeof sent, &answer);
    refusals[refusal]++;
    if (!refusal) carry_out(p, time, &answer, sent);
}

static struct acceptor *acceptor_of(uint16_t address) {
    for (size_t i = 0; i < acceptor_count; i++)
        if (acceptors[i].address == address) return &acceptors[i];
    return NULL;
}

static struct proposer *proposer_of(uint16_t address) {
    for (size_t i = 0; i < proposer_count; i++)
        if (proposers[i].address == address) return &proposers[i];
    return NULL;
}

/* ---- the run ---- */

static void key_of(struct text *key, uint64_t valve) { key->length = (size_t)snprintf((char *)key->bytes, TEXT, "valve %llu", (unsigned long long)valve); }

static void give(struct order *o) {
    struct frame f = {.time = o->time, .from = o->client, .to = o->proposer, .value = o->value, .other = o->other};
    f.message = (struct mirkaspel_message){.kind = MIRKASPEL_CLIENT_REQUEST, .number = (uint64_t)(o - orders) + 1, .request = o->request};
    f.message.value = o->request == MIRKASPEL_SET || o->value.length > 0;
    f.message.other = o->other.length > 0;
    key_of(&f.key, o->valve);
    o->refusal = at_proposer(proposer_of(o->proposer), &f);
}

static void deliver(size_t place) {
    struct frame f = frames[place];
    memmove(&frames[place], &frames[place + 1], (--frame_count - place) * sizeof f);
    struct acceptor *a = acceptor_of(f.to);
    struct proposer *p = proposer_of(f.to);
    if (a) at_acceptor(a, &f);
    if (p) at_proposer(p, &f);
}

/* Millisecond by millisecond: the orders of that time, the frames that arrive, and now and then a tick. */
static void run(void) {
    uint64_t end = 0;
    for (size_t i = 0; i < order_count; i++)
        if (end < orders[i].time) end = orders[i].time;
    end += timeout + TICK + 1000;
    for (uint64_t now = 0; now <= end; now++) {
        for (size_t i = 0; i < order_count; i++)
            if (orders[i].time == now) give(&orders[i]);
        while (frame_count && frames[earliest()].time <= now) deliver(earliest());
        if (now % TICK == 0)
            for (size_t i = 0; i < proposer_count; i++) tick(&proposers[i], now);
    }
}

/* ---- what is printed ---- */

static const char *const refusal_names[] = {
    "", "a lent area's size", "a damaged area", "a kind that isn't for this party", "over the limits", "an acceptance in the first phase",
    "the sender has answered in this phase", "the sender isn't waited for", "an error of another kind", "a promise that is above the request",
    "the counter is used up", "no room", "a clock that steps back"};

static void print_text(char *out, size_t room, int present, const struct text *t) {
    if (present)
        snprintf(out, room, "'%.*s'", (int)t->length, (const char *)t->bytes);
    else
        snprintf(out, room, "no value");
}

/* A valve's register at a controller. */
struct holding {
    uint64_t seen, accepted;
    int present;
    struct text value;
};

static void look_up(const struct acceptor *a, uint64_t valve, struct holding *h) {
    struct text key;
    key_of(&key, valve);
    memset(h, 0, sizeof *h);
    for (size_t i = 0; i < VALVES; i++) {
        const uint8_t *b = a->table + MIRKASPEL_BLOCK * i;
        if (b[0] != 1 || b[MIRKASPEL_BLOCK_KEY_LEN] != key.length || memcmp(b + MIRKASPEL_BLOCK_KEY, key.bytes, key.length)) continue;
        h->seen = number_at(b + MIRKASPEL_BLOCK_SEEN, 8);
        h->accepted = number_at(b + MIRKASPEL_BLOCK_ACCEPTED, 8);
        h->present = b[MIRKASPEL_BLOCK_HAS_VALUE];
        fill(&h->value, b + MIRKASPEL_BLOCK_VALUE, number_at(b + MIRKASPEL_BLOCK_VALUE_LEN, 2));
    }
}

static int same(const struct holding *x, const struct holding *y) {
    return x->present == y->present && x->value.length == y->value.length && !memcmp(x->value.bytes, y->value.bytes, x->value.length);
}

/* Whether no two controllers hold two values at one ballot; and the value of the highest ballot that a majority has accepted, or none. */
static int print_agreed(const struct holding *held) {
    const struct holding *agreed = NULL;
    size_t holders = 0;
    int sound = 1;
    for (size_t i = 0; i < acceptor_count; i++) {
        size_t alike = 0;
        for (size_t j = 0; j < acceptor_count; j++) {
            if (held[j].accepted != held[i].accepted) continue;
            if (same(&held[i], &held[j])) alike++;
            else sound = 0;
        }
        if (held[i].accepted && 2 * alike > acceptor_count && (!agreed || held[i].accepted > agreed->accepted)) agreed = &held[i], holders = alike;
    }
    char value[300];
    if (!sound) printf("TWO VALUES AT ONE BALLOT\n");
    else if (!agreed) printf("no ballot is held by a majority\n");
    else {
        print_text(value, sizeof value, agreed->present, &agreed->value);
        printf("agreed: %s, held by %zu of %zu controllers at ballot %llu\n", value, holders, acceptor_count, (unsigned long long)agreed->accepted);
    }
    return sound;
}

static void print_order(const struct order *o) {
    static const char *const names[] = {"", "get", "del", "set", "cas"};
    static const char *const results[] = {"done", "ProposalRejected", "AcceptRejected", "CasFailed", "Timeout"};
    char value[300], other[300], order[700], told[400];
    print_text(value, sizeof value, o->value.length > 0, &o->value);
    print_text(other, sizeof other, o->other.length > 0, &o->other);
    if (o->request == MIRKASPEL_CAS) snprintf(order, sizeof order, "cas %s to %s", value, other);
    else if (o->request == MIRKASPEL_SET) snprintf(order, sizeof order, "set %s", value);
    else snprintf(order, sizeof order, "%s", names[o->request]);
    if (o->refusal) snprintf(told, sizeof told, "refusal %d: %s", o->refusal, refusal_names[o->refusal]);
    else if (!o->told) snprintf(told, sizeof told, "nothing");
    else {
        uint64_t r = o->reply.result;
        print_text(value, sizeof value, (int)(r ? o->reply.other : o->reply.value), &o->reply_value);
        if (r == MIRKASPEL_OK || r == MIRKASPEL_CAS_FAILED) snprintf(told, sizeof told, "%s, %s", results[r], value);
        else snprintf(told, sizeof told, "%s", results[r]);
    }
    printf("    %6llu  %6d  %8d  %-46s %6llu  %s\n", (unsigned long long)o->time, o->client, o->proposer, order, (unsigned long long)o->told_at, told);
}

static int print_valve(uint64_t valve) {
    struct holding held[PARTIES];
    printf("Valve %llu: ", (unsigned long long)valve);
    for (size_t i = 0; i < acceptor_count; i++) look_up(&acceptors[i], valve, &held[i]);
    int sound = print_agreed(held);
    printf("    controller  promised  accepted  holds\n");
    for (size_t i = 0; i < acceptor_count; i++) {
        char value[300];
        print_text(value, sizeof value, held[i].present, &held[i].value);
        printf("    %10d  %8llu  %8llu  %s\n", acceptors[i].address, (unsigned long long)held[i].seen, (unsigned long long)held[i].accepted, value);
    }
    printf("    at, ms  client  proposer  %-46s at, ms  told\n", "order");
    for (size_t i = 0; i < order_count; i++)
        if (orders[i].valve == valve) print_order(&orders[i]);
    printf("\n");
    return sound;
}

static int print_plant(void) {
    printf("%zu controllers, %zu proposers, %zu orders. Frames between them: %llu sent, %llu lost, %llu repeated, %llu late.\n", acceptor_count,
        proposer_count, order_count, (unsigned long long)frames_sent, (unsigned long long)frames_lost, (unsigned long long)frames_repeated,
        (unsigned long long)frames_late);
    printf("Refused:");
    int any = 0;
    for (int i = 1; i <= 12; i++)
        if (refusals[i]) any = printf(" %llu by refusal %d (%s);", (unsigned long long)refusals[i], i, refusal_names[i]);
    printf(any ? " nothing was sent for these, and no byte moved.\n\n" : " nothing.\n\n");
    int sound = 1;
    for (uint64_t valve = 0; valve < 65536; valve++)
        for (size_t i = 0; i < order_count; i++)
            if (orders[i].valve == valve) {
                sound &= print_valve(valve);
                break;
            }
    return sound;
}

/* ---- the list ---- */

static void unreadable(size_t line, const char *why, ...) {
    va_list args;
    va_start(args, why);
    fprintf(stderr, "plant: line %zu: ", line);
    vfprintf(stderr, why, args);
    fprintf(stderr, "\n");
    va_end(args);
    exit(2);
}

/* The words of a line; one in quotes may have spaces. A '#' ends the line. */
static size_t split(char *line, char *words[WORDS], size_t n) {
    size_t count = 0;
    for (char *c = line; *c && *c != '#';) {
        if (*c == ' ' || *c == '\t' || *c == '\n' || *c == '\r') {
            *c++ = 0;
            continue;
        }
        if (count == WORDS) unreadable(n, "more than %d words", WORDS);
        int quoted = *c == '"';
        words[count++] = c += quoted;
        while (*c && (quoted ? *c != '"' : *c != ' ' && *c != '\t' && *c != '\n' && *c != '\r')) c++;
        if (quoted && !*c) unreadable(n, "a quote without its end");
        if (*c) *c++ = 0;
    }
    return count;
}

static uint64_t number(const char *word, uint64_t least, uint64_t most, size_t line) {
    char *end;
    unsigned long long n = strtoull(word, &end, 10);
    if (*word < '0' || *word > '9' || *end || n < least || n > most)
        unreadable(line, "'%s' is no number from %llu to %llu", word, (unsigned long long)least, (unsigned long long)most);
    return n;
}

static void put_value(struct text *t, const char *word, size_t line) {
    if (!strcmp(word, "none")) return;
    if (strlen(word) > TEXT) unreadable(line, "'%s' is longer than %d characters", word, TEXT);
    fill(t, (const uint8_t *)word, strlen(word));
}

static uint16_t address(const char *word, size_t line) {
    uint16_t a = (uint16_t)number(word, 1, 65535, line);
    if (acceptor_of(a) || proposer_of(a)) unreadable(line, "address %d is taken", a);
    return a;
}

static void read_order(char *words[WORDS], size_t count, size_t line) {
    static const struct { const char *name; uint64_t request; size_t words; } kinds[] = {
        {"get", MIRKASPEL_GET, 5}, {"del", MIRKASPEL_DEL, 5}, {"set", MIRKASPEL_SET, 6}, {"cas", MIRKASPEL_CAS, 7}};
    if (order_count == ORDERS) unreadable(line, "more than %d orders", ORDERS);
    struct order *o = &orders[order_count++];
    o->time = number(words[0], 0, 1000000, line);
    for (size_t k = 0; count >= 5 && k < 4; k++)
        if (!strcmp(words[4], kinds[k].name) && count == kinds[k].words) o->request = kinds[k].request;
    if (!o->request) unreadable(line, "an order is TIME CLIENT PROPOSER VALVE get | del | set VALUE | cas OLD NEW");
    o->client = (uint16_t)number(words[1], 1, 65535, line);
    o->proposer = (uint16_t)number(words[2], 1, 65535, line);
    if (!proposer_of(o->proposer)) unreadable(line, "no proposer has the address %d", o->proposer);
    o->valve = number(words[3], 0, 65535, line);
    if (count > 5) put_value(&o->value, words[5], line);
    if (count > 6) put_value(&o->other, words[6], line);
}

static void read_line(char *words[WORDS], size_t count, size_t line) {
    if (!strcmp(words[0], "controllers"))
        for (size_t i = 1; i < count; i++) {
            if (acceptor_count == PARTIES) unreadable(line, "more than %d controllers", PARTIES);
            acceptors[acceptor_count].address = address(words[i], line);
            acceptor_count++;
        }
    else if (!strcmp(words[0], "proposers"))
        for (size_t i = 1; i < count; i++) {
            if (proposer_count == PARTIES) unreadable(line, "more than %d proposers", PARTIES);
            proposers[proposer_count].address = address(words[i], line);
            proposer_count++;
        }
    else if (!strcmp(words[0], "timeout") && count == 2) timeout = number(words[1], 0, 1000000, line);
    else if (!strcmp(words[0], "lost") && count == 2) lost = number(words[1], 0, 100, line);
    else if (!strcmp(words[0], "repeated") && count == 2) repeated = number(words[1], 0, 100, line);
    else if (!strcmp(words[0], "late") && count == 2) late = number(words[1], 0, 100, line);
    else if (!strcmp(words[0], "seed") && count == 2) random_state = number(words[1], 1, 1000000, line);
    else if (*words[0] >= '0' && *words[0] <= '9') read_order(words, count, line);
    else unreadable(line, "'%s' is no word of a list", words[0]);
}

static void read_list(FILE *in) {
    char text[1024], *words[WORDS];
    for (size_t line = 1; fgets(text, sizeof text, in); line++) {
        size_t count = split(text, words, line);
        if (count) read_line(words, count, line);
    }
    if (!acceptor_count || !proposer_count) unreadable(0, "a list names controllers and proposers first");
}

int main(void) {
    read_list(stdin);
    uint16_t list[PARTIES];
    for (size_t i = 0; i < acceptor_count; i++) list[i] = acceptors[i].address;
    for (size_t i = 0; i < proposer_count; i++)
        if (mirkaspel_proposer_start(proposers[i].area, sizeof proposers[i].area, PENDING, timeout, list, acceptor_count)) unreadable(0, "a proposer would not start");
    run();
    return print_plant() ? 0 : 1;
}
