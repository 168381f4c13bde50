/* Random events on random states, some of them damaged, through the library of version 0.5.0 (ABI 4; its
 * entries are called old_m2ua_..) and this one: the orders of an event that is not kept, the event alone, and
 * the event with its bytes by one call; with short lists and holds of another length. against-old EVENTS
 * SEED */
#include <stdio.h>
#include <stdlib.h>
#include <string.h>
#include "m2ua.h"

m2ua_outcome old_m2ua_run(m2ua_gateway g, uint32_t kind, size_t index, const uint8_t *msg, size_t len, uint8_t *hold,
                          size_t hold_bytes, size_t size, uint32_t *words, size_t count);
m2ua_batch old_m2ua_orders(m2ua_gateway g, uint32_t kind, size_t index, const uint8_t *msg, size_t len,
                           const uint8_t *hold, size_t hold_bytes, size_t place, uint32_t *lens, size_t len_count,
                           uint8_t *out, size_t out_bytes);
uint32_t old_m2ua_is_sound(m2ua_gateway g);
m2ua_timers old_m2ua_waits(m2ua_gateway before, m2ua_gateway after);

/* ---- what is random */

static uint64_t seed;

static uint32_t below(uint32_t n) {
    seed ^= seed << 13, seed ^= seed >> 7, seed ^= seed << 17;
    return (uint32_t)(seed >> 20) % n;
}

static void put32(uint8_t *at, uint32_t x) {
    for (int i = 0; i < 4; i++) at[i] = (uint8_t)(x >> (24 - 8 * i));
}

static uint32_t ids[M2UA_MAX_LINKS], asps, ases, links;

/* A plan of any size; a quarter of them plan S in size, a quarter full. */
static m2ua_gateway plan(void) {
    static uint8_t file[M2UA_MAX_PLAN];
    const uint32_t shape = below(4), gap = below(3) ? 1 : 40;
    asps = shape == 0 ? 3 : shape == 1 ? 16 : 1 + below(16);
    ases = shape == 0 ? 2 : shape == 1 ? 16 : 1 + below(16);
    links = shape == 0 ? 17 : shape == 1 ? 128 : below(129);
    const uint32_t head[6] = {24, asps, 24 + 8 * asps, ases, 24 + 8 * asps + 4 * ases, links};
    for (int i = 0; i < 6; i++) put32(file + 4 * i, head[i]);
    for (uint32_t i = 0; i < asps; i++) {
        const uint32_t some = below(0x10000) & ((1u << ases) - 1);
        put32(file + 24 + 8 * i, 7 + i);
        put32(file + 28 + 8 * i, (shape == 1 ? 0xffff0000 : some << 16) | (below(5) == 0));
    }
    for (uint32_t i = 0; i < ases; i++) put32(file + head[2] + 4 * i, below(3) + 1);
    uint32_t id = below(3) ? below(300) : 0;
    for (uint32_t i = 0; i < links; i++) {
        ids[i] = id, id += 1 + below(gap);
        put32(file + head[4] + 8 * i, ids[i]);
        put32(file + head[4] + 4 + 8 * i, below(ases) | (below(3) ? 0 : 0x10000));
    }
    const m2ua_loaded loaded = m2ua_load(file, head[4] + 8 * links);
    if (loaded.code) printf("a plan is refused: %u\n", loaded.code), exit(1);
    return loaded.gateway;
}

static uint8_t msg[4096];
static size_t len;

static void add(uint16_t tag, uint32_t value) {
    put32(msg + len, (uint32_t)tag << 16 | 8);
    put32(msg + len + 4, value);
    len += 8;
}

static uint32_t some_id(void) { return links && below(8) ? ids[below(links)] : below(200); }

/* Identifiers or ranges, mostly few of them. */
static void add_names(void) {
    const uint16_t tag = below(2) ? M2UA_TAG_INTERFACE_ID : M2UA_TAG_INTERFACE_ID_RANGE;
    const uint32_t each = tag == M2UA_TAG_INTERFACE_ID ? 1 : 2;
    const uint32_t count = below(12) ? 1 + below(6) : 1 + below(500 / each);
    put32(msg + len, (uint32_t)tag << 16 | (4 + 4 * each * count));
    len += 4;
    for (uint32_t i = 0; i < count; i++) {
        const uint32_t id = some_id();
        put32(msg + len, id), len += 4;
        if (each == 2) put32(msg + len, id + below(9)), len += 4;
    }
}

static void add_data(void) {
    if (below(3) == 0) add(M2UA_TAG_CORRELATION_ID, below(1000));
    const uint32_t bytes = below(20) ? 1 + below(60) : 1 + below(M2UA_MAX_DATA), padded = (bytes + 3) / 4 * 4;
    put32(msg + len, (uint32_t)(below(4) ? M2UA_TAG_DATA_1 : M2UA_TAG_DATA_2) << 16 | (4 + bytes));
    len += 4;
    for (uint32_t i = 0; i < padded; i++) msg[len + i] = i < bytes ? (uint8_t)below(256) : 0;
    len += padded;
}

static void add_retrieval(uint8_t type) {
    add(M2UA_TAG_RETRIEVAL_ACTION, below(3));
    if (type == M2UA_TYPE_RETRIEVAL_CONFIRM) add(M2UA_TAG_RETRIEVAL_RESULT, below(2));
    if (below(2)) add(M2UA_TAG_SEQUENCE, below(2) ? below(130) : below(4100));
}

/* A message of an ASP or of the link side; one in 30 has a bit changed. */
static void message(void) {
    static const uint8_t kinds[20][2] = {{3, 1}, {3, 1}, {3, 2}, {3, 3}, {4, 1}, {4, 1}, {4, 2}, {6, 1}, {6, 1}, {6, 1},
                                         {6, 2}, {6, 4}, {6, 7}, {6, 8}, {6, 10}, {6, 11}, {6, 9}, {6, 15}, {0, 0}, {3, 6}};
    const uint8_t *kind = kinds[below(20)], type = kind[1];
    msg[0] = 1, msg[1] = 0, msg[2] = kind[0], msg[3] = type, len = 8;
    if (kind[0] == 4 && below(4) == 0) add(M2UA_TAG_TRAFFIC_MODE, below(3) + 1);
    if (kind[0] == 4 && below(2)) add_names();
    if (kind[0] == 3 && type == M2UA_TYPE_BEAT && below(2)) add(M2UA_TAG_HEARTBEAT, below(9));
    if (kind[0] == 6) {
        add(M2UA_TAG_INTERFACE_ID, some_id());
        if (type == M2UA_TYPE_DATA) add_data();
        if (type == M2UA_TYPE_STATE_REQUEST || type == M2UA_TYPE_STATE_CONFIRM) add(M2UA_TAG_STATE, below(12));
        if (type == M2UA_TYPE_STATE_INDICATION) add(M2UA_TAG_STATE_EVENT, below(5));
        if (type == M2UA_TYPE_RETRIEVAL_REQUEST || type == M2UA_TYPE_RETRIEVAL_CONFIRM) add_retrieval(type);
        if (type == M2UA_TYPE_DATA_ACK) add(M2UA_TAG_CORRELATION_ID, below(9));
    }
    put32(msg + 4, (uint32_t)len);
    if (below(30) == 0) msg[below((uint32_t)len)] ^= (uint8_t)(1u << below(8));
}

/* ---- what is compared */

typedef struct {
    uint32_t kind;
    size_t index, hold_bytes, words;
} event;

static event some_event(void) {
    const uint32_t r = below(16);
    event e = {r < 10 ? 0 : r < 13 ? M2UA_LINK_MESSAGE : r < 15 ? 1 + below(4) : below(9), 0, M2UA_HOLD_BYTES, M2UA_LIST_WORDS};
    const uint32_t link = e.kind == M2UA_LINK_UP || e.kind == M2UA_LINK_DOWN;
    e.index = link ? below(links + 2) : e.kind == M2UA_RECOVERY ? below(ases + 1) : below(asps + 1);
    if (below(50) == 0) e.words -= 1 + below(3);
    if (below(40) == 0) e.hold_bytes += below(2) ? 1 : -(size_t)1;
    message();
    return e;
}

/* What both sides are lent: the old library's, and this one's twice, for the event alone and with its
 * bytes. */
enum { HOLD = M2UA_HOLD_BYTES + 64, BYTES = 65536 };
static uint8_t hold[HOLD], hold_alone[HOLD], hold_handled[HOLD], out[BYTES], out_here[BYTES];
static uint32_t words[M2UA_LIST_WORDS], words_here[M2UA_LIST_WORDS], lens[M2UA_MAX_ORDERS], lens_here[M2UA_MAX_ORDERS];
static m2ua_room room;
static long turn, orders, bytes, by[256], changed, damaged;

static void need(int same, const char *what) {
    if (same) return;
    printf("event %ld differs: %s\n", turn, what);
    exit(1);
}

/* The orders of an event that is not kept: all of them, and one by itself. */
static m2ua_batch not_kept(const m2ua_gateway *g, event e) {
    const m2ua_gateway before = *g;
    const m2ua_batch a = old_m2ua_orders(*g, e.kind, e.index, msg, len, hold, e.hold_bytes, 0, lens, M2UA_MAX_ORDERS, out, BYTES);
    const m2ua_batch b = m2ua_orders(g, e.kind, e.index, msg, len, hold, e.hold_bytes, 0, lens_here, M2UA_MAX_ORDERS, out_here, BYTES);
    need(a.code == b.code && a.count == b.count && a.length == b.length, "orders: numbers");
    need(!memcmp(lens, lens_here, sizeof lens) && !memcmp(out, out_here, a.length), "orders: lengths or bytes");
    if (a.count && below(8) == 0) {
        const size_t place = below((uint32_t)a.count);
        size_t at = 0;
        for (size_t j = 0; j < place; j++) at += lens[j];
        const m2ua_written w = m2ua_order(g, e.kind, e.index, msg, len, hold, e.hold_bytes, place, out_here, M2UA_MAX_MESSAGE);
        const int same = w.code == 0 && w.length == lens[place] && !memcmp(out_here, out + at, w.length);
        need(lens[place] ? same : w.code == M2UA_REFUSED_ORDER, "one order");
    }
    need(!memcmp(g, &before, sizeof before), "orders changed the state");
    return a;
}

/* The event with its bytes: what the old library's two calls and its timers give. */
static void with_bytes(const m2ua_gateway *g, event e, m2ua_outcome x, m2ua_batch batch) {
    m2ua_gateway here = *g;
    const m2ua_handled h = m2ua_handle(&here, e.kind, e.index, msg, len, hold_handled, e.hold_bytes, &room);
    if (x.refusal == M2UA_REFUSED_LIST) return; /* a room has all words */
    const uint32_t code = batch.code == M2UA_REFUSED_ORDER ? 0 : batch.code;
    const m2ua_timers timers = old_m2ua_waits(*g, x.gateway);
    need(h.refusal == code && h.refusal == x.refusal && h.count == batch.count && h.length == batch.length, "one call: numbers");
    need(!memcmp(&here, &x.gateway, sizeof here) && !memcmp(hold_handled, hold, HOLD), "one call: state or hold");
    need(!memcmp(room.words, words, 16 * h.count) && !memcmp(room.lens, lens, 4 * h.count), "one call: words or lengths");
    need(!memcmp(room.bytes, out, h.length) && !memcmp(&room.timers, &timers, sizeof timers), "one call: bytes or timers");
    orders += (long)h.count, bytes += (long)h.length;
}

/* One event of a state; the next state. */
static m2ua_gateway compared(const m2ua_gateway *g, event e) {
    m2ua_gateway here = *g;
    need(old_m2ua_is_sound(*g) == m2ua_is_sound(g), "soundness");
    memcpy(hold_alone, hold, HOLD), memcpy(hold_handled, hold, HOLD);
    const m2ua_batch batch = not_kept(g, e);
    const m2ua_outcome x = old_m2ua_run(*g, e.kind, e.index, msg, len, hold, e.hold_bytes, e.hold_bytes, words, e.words);
    const m2ua_done d = m2ua_event(&here, e.kind, e.index, msg, len, hold_alone, e.hold_bytes, words_here, e.words);
    need(x.refusal == d.refusal && x.count == d.count, "event: numbers");
    need(!memcmp(&x.gateway, &here, sizeof here), "event: state");
    need(!memcmp(words, words_here, sizeof words) && !memcmp(hold, hold_alone, HOLD), "event: words or hold");
    need(!d.refusal || !memcmp(g, &here, sizeof here), "refused, and changed");
    with_bytes(g, e, x, batch);
    by[d.refusal < 256 ? d.refusal : 255]++;
    changed += memcmp(g, &here, sizeof here) != 0;
    return d.refusal ? *g : here;
}

int main(int argc, char **argv) {
    if (argc != 3) return fprintf(stderr, "usage: against-old EVENTS SEED\n"), 2;
    const long events = atol(argv[1]);
    seed = strtoull(argv[2], NULL, 0) * 0x9e3779b97f4a7c15u | 1;
    m2ua_gateway state = plan();
    for (turn = 0; turn < events; turn++) {
        if (below(300) == 0) state = plan();
        m2ua_gateway met = state;
        const int damage = below(20) == 0;
        if (damage) ((uint8_t *)&met)[below(sizeof met)] = (uint8_t)(below(2) ? below(4) : below(256)), damaged++;
        const m2ua_gateway next = compared(&met, some_event());
        if (!damage || m2ua_is_sound(&next)) state = next;
    }
    printf("against-old, seed %s: %ld events, no difference: accepted %ld, of which %ld changed the state, with %ld orders of %ld bytes; "
           "refused 101 %ld, 102 %ld, 105 %ld, 106 %ld; %ld states damaged\n",
           argv[2], events, by[0], changed, orders, bytes, by[101], by[102], by[105], by[106], damaged);
    return 0;
}
