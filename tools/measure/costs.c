/* What the most expensive messages cost a host: events on a full plan (16 ASPs in 16 ASes, 128 links), best
 * of many calls, with the orders that they give: the event alone, and with the bytes of all its orders by one
 * call. Where units are held, all ASes hold 8 of the longest. The last lines have another message at each
 * call, so that the processor cannot learn it: the median of these. */
#include <stdio.h>
#include <stdlib.h>
#include <string.h>
#include <time.h>
#include "m2ua.h"

static m2ua_room room;
static uint8_t hold[M2UA_HOLD_BYTES];

static double now(void) {
    struct timespec t;
    clock_gettime(CLOCK_MONOTONIC, &t);
    return 1e9 * (double)t.tv_sec + (double)t.tv_nsec;
}

static void put32(uint8_t *at, uint32_t x) {
    for (int i = 0; i < 4; i++) at[i] = (uint8_t)(x >> (24 - 8 * i));
}

/* The identifiers of the links: 0, 1, 2 and so on, or with random gaps. */
static uint32_t ids[M2UA_MAX_LINKS];

static m2ua_gateway full_plan(uint8_t mode) {
    static uint8_t file[M2UA_MAX_PLAN];
    const uint32_t head[6] = {24, 16, 152, 16, 216, 128};
    for (int i = 0; i < 6; i++) put32(file + 4 * i, head[i]);
    for (uint32_t i = 0; i < 16; i++) {
        put32(file + 24 + 8 * i, i);
        put32(file + 28 + 8 * i, 0xffff0000);
        put32(file + 152 + 4 * i, mode);
    }
    for (uint32_t i = 0; i < 128; i++) {
        put32(file + 216 + 8 * i, ids[i]);
        put32(file + 220 + 8 * i, i % 16);
    }
    return m2ua_load(file, sizeof file).gateway;
}

static m2ua_gateway after(m2ua_gateway g, size_t asp, const uint8_t *msg, size_t len) {
    m2ua_message(&g, asp, msg, len, hold, sizeof hold, &room);
    return g;
}

static m2ua_gateway all_up(m2ua_gateway g) {
    const uint8_t up[8] = {1, 0, 3, 1, 0, 0, 0, 8};
    for (size_t p = 0; p < 16; p++) g = after(g, p, up, 8);
    return g;
}

static m2ua_gateway state;

/* One call on a state that is put back before it: the event alone, or with the bytes of all its orders. */
static double call(const m2ua_gateway *g, uint32_t kind, const uint8_t *msg, size_t len, int with_bytes, m2ua_handled *h) {
    state = *g;
    const double start = now();
    if (with_bytes) {
        *h = m2ua_handle(&state, kind, 0, msg, len, hold, sizeof hold, &room);
    } else {
        const m2ua_done d = m2ua_event(&state, kind, 0, msg, len, hold, sizeof hold, room.words, M2UA_LIST_WORDS);
        h->refusal = d.refusal, h->count = d.count;
    }
    const double took = now() - start;
    if (h->refusal) printf("refused: %u\n", h->refusal), exit(1);
    return took;
}

static void cost(const char *what, m2ua_gateway g, uint32_t kind, const uint8_t *msg, size_t len) {
    double best[2] = {1e18, 1e18};
    m2ua_handled h = {0, 0, 0};
    for (int with = 0; with < 2; with++) {
        for (int i = 0; i < 4000; i++) {
            const double took = call(&g, kind, msg, len, with, &h);
            if (took < best[with]) best[with] = took;
        }
    }
    printf("%-60s %7.2f %6zu %6zu %8.2f\n", what, best[0] / 1e3, h.count, h.length, best[1] / 1e3);
}

/* An Active with one parameter of a tag, whose value has so many words. */
static size_t active(uint8_t *msg, uint16_t tag, size_t count, uint32_t (*word)(size_t)) {
    const uint8_t head[4] = {1, 0, M2UA_CLASS_ASPTM, M2UA_TYPE_ACTIVE};
    memcpy(msg, head, 4);
    put32(msg + 4, (uint32_t)(12 + 4 * count));
    put32(msg + 8, (uint32_t)tag << 16 | (uint32_t)(4 + 4 * count));
    for (size_t i = 0; i < count; i++) put32(msg + 12 + 4 * i, word(i));
    return 12 + 4 * count;
}

static uint32_t mixed(size_t i) { return (uint32_t)(i * 37 % 128); }
static uint32_t whole(size_t i) { return i % 2 ? 127 : 0; }
static uint32_t wide(size_t i) { return i % 2 ? 0xffffffff : 0; }
static uint32_t ones(size_t i) { return (uint32_t)(i / 2 * 37 % 128); }
static uint32_t tenth_bad(size_t i) { return i % 10 ? mixed(i) : 1000; }
static uint32_t last_bad(size_t i) { return i < 508 ? mixed(i) : 1000; }
static uint32_t gaps(size_t i) { return i % 2 ? 1000 : (uint32_t)(i / 2 * 37 % 128); }
static uint32_t halves(size_t i) { return i % 2 ? 127 : (uint32_t)(i / 2 % 64); }

/* ASP 0 was active in all ASes and is inactive; each AS gets 8 units of 273 bytes with a correlation id. */
static m2ua_gateway pending(m2ua_gateway on, int says) {
    static uint8_t data[304] = {1, 0, 6, 1, 0, 0, 1, 0x30, 0, 1, 0, 8, 0, 0, 0, 0, 0, 0x13, 0, 8, 0, 0, 0, 5, 3, 0, 1, 0x15};
    const uint8_t inactive[8] = {1, 0, 4, 2, 0, 0, 0, 8};
    m2ua_gateway g = after(on, 0, inactive, 8);
    for (uint32_t i = 0; i < 128; i++) {
        put32(data + 12, ids[i]);
        if (i == 0 && says) cost("Data held, the first", g, M2UA_LINK_MESSAGE, data, sizeof data);
        m2ua_link_message(&g, data, sizeof data, hold, sizeof hold, &room);
    }
    if (says) cost("Data turned away, 128 units held", g, M2UA_LINK_MESSAGE, data, sizeof data);
    return g;
}

/* ---- another message each time */

enum { MESSAGES = 1000 };
static uint8_t messages[MESSAGES][M2UA_MAX_MESSAGE];
static double took[2][MESSAGES];
static uint64_t seed = 88172645463325252u;

static uint32_t below(uint32_t n) {
    seed ^= seed << 13, seed ^= seed >> 7, seed ^= seed << 17;
    return (uint32_t)(seed >> 20) % n;
}

static int by_size(const void *a, const void *b) {
    const double x = *(const double *)a, y = *(const double *)b;
    return (x > y) - (x < y);
}

/* Identifiers of links in no order, half of them one above a link's, which no link has. */
static uint32_t half_unknown(size_t i) {
    (void)i;
    return ids[below(M2UA_MAX_LINKS)] + below(2);
}

/* The same as ranges of up to 40 numbers. */
static uint32_t half_unknown_ranges(size_t i) {
    static uint32_t start;
    if (i % 2) return start + below(40);
    return start = half_unknown(i);
}

static void fresh_each_time(const char *what, m2ua_gateway g, uint16_t tag, size_t count, uint32_t (*word)(size_t)) {
    m2ua_handled h = {0, 0, 0};
    for (size_t i = 0; i < MESSAGES; i++) {
        const size_t len = active(messages[i], tag, count, word);
        for (int with = 0; with < 2; with++) took[with][i] = call(&g, M2UA_MESSAGE, messages[i], len, with, &h);
    }
    for (int with = 0; with < 2; with++) qsort(took[with], MESSAGES, sizeof **took, by_size);
    printf("%-60s %7.2f %6zu %6zu %8.2f\n", what, took[0][MESSAGES / 2] / 1e3, h.count, h.length, took[1][MESSAGES / 2] / 1e3);
}

static void with_gaps(void) {
    const uint8_t bare[8] = {1, 0, 4, 1, 0, 0, 0, 8};
    uint32_t id = 0;
    for (size_t l = 0; l < M2UA_MAX_LINKS; l++) ids[l] = id += 2 + below(60);
    m2ua_gateway g = all_up(full_plan(M2UA_MODE_BROADCAST));
    g = pending(after(g, 0, bare, 8), 0);
    printf("links with gaps in their numbers, 128 units go out, another message each time (median)\n");
    fresh_each_time("Active of 509 identifiers in no order, half unknown", g, M2UA_TAG_INTERFACE_ID, 509, half_unknown);
    fresh_each_time("Active of 254 ranges in no order, half begin unknown", g, M2UA_TAG_INTERFACE_ID_RANGE, 508, half_unknown_ranges);
}

int main(void) {
    static uint8_t msg[M2UA_MAX_MESSAGE];
    const uint8_t up[8] = {1, 0, 3, 1, 0, 0, 0, 8}, bare[8] = {1, 0, 4, 1, 0, 0, 0, 8};
    for (uint32_t i = 0; i < M2UA_MAX_LINKS; i++) ids[i] = i;
    m2ua_gateway g = all_up(full_plan(M2UA_MODE_BROADCAST));
    m2ua_gateway on = after(g, 0, bare, 8);
    printf("%-60s %7s %6s %6s %8s\n", "microseconds", "event", "orders", "bytes", "with all bytes");
    cost("Beat", g, M2UA_MESSAGE, (const uint8_t[]){1, 0, 3, 3, 0, 0, 0, 8}, 8);
    cost("Active without identifiers, 16 ASes", g, M2UA_MESSAGE, bare, 8);
    cost("Up of an ASP that is active in 16 ASes", on, M2UA_MESSAGE, up, 8);
    cost("Active of 509 identifiers, mixed", g, M2UA_MESSAGE, msg, active(msg, 1, 509, mixed));
    cost("Active of 254 ranges of one identifier, mixed", g, M2UA_MESSAGE, msg, active(msg, 8, 508, ones));
    cost("Active of 254 ranges over all 128 links", g, M2UA_MESSAGE, msg, active(msg, 8, 508, whole));
    cost("Active of 254 ranges over half of the links and more", g, M2UA_MESSAGE, msg, active(msg, 8, 508, halves));
    cost("Active of 509 identifiers, mixed, each tenth bad", g, M2UA_MESSAGE, msg, active(msg, 1, 509, tenth_bad));
    cost("Active of 254 ranges from a link to beyond the last one", g, M2UA_MESSAGE, msg, active(msg, 8, 508, gaps));
    cost("Active of 254 ranges over all numbers", g, M2UA_MESSAGE, msg, active(msg, 8, 508, wide));
    cost("the same on an AS that is active: identifiers mixed", on, M2UA_MESSAGE, msg, active(msg, 1, 509, mixed));
    /* 510 empty info strings would be 19; the longest walk of an accepted message has many short ids
     * parameters */
    size_t n = 8;
    memcpy(msg, (const uint8_t[]){1, 0, 4, 1, 0, 0, 8, 0}, 8);
    for (; n + 8 <= sizeof msg; n += 8) put32(msg + n, 0x00010008), put32(msg + n + 4, mixed(n));
    cost("Active of 255 parameters of one identifier each, mixed", g, M2UA_MESSAGE, msg, n);
    for (n = 8; n + 12 <= sizeof msg; n += 12) put32(msg + n, 0x0008000c), put32(msg + n + 4, 0), put32(msg + n + 8, 127);
    cost("Active of 170 parameters of one range over all 128 links", g, M2UA_MESSAGE, msg, n);
    g = pending(on, 1);
    cost("Beat, 128 units held", g, M2UA_MESSAGE, (const uint8_t[]){1, 0, 3, 3, 0, 0, 0, 8}, 8);
    cost("Active without identifiers that sends 128 units", g, M2UA_MESSAGE, bare, 8);
    cost("the same with 509 identifiers, mixed", g, M2UA_MESSAGE, msg, active(msg, 1, 509, mixed));
    cost("the same with 509 identifiers, mixed, the last one bad", g, M2UA_MESSAGE, msg, active(msg, 1, 509, last_bad));
    cost("the same with 254 ranges over all 128 links", g, M2UA_MESSAGE, msg, active(msg, 8, 508, whole));
    with_gaps();
    return 0;
}
