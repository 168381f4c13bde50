/* The reader and the writer beside libosmo-sigtran's, which parses a message into a list and builds it from
 * one (xua_from_msg, xua_to_msg) and judges neither class, type, tags, lengths nor values: nanoseconds of one
 * call, best of 101 rounds, both in each round. */
#include <stdio.h>
#include <string.h>
#include <time.h>
#include <osmocom/core/msgb.h>
#include <osmocom/sigtran/xua_msg.h>
#include "m2ua.h"

enum { ROUNDS = 101, CALLS = 5000 };

static uint8_t message[M2UA_MAX_MESSAGE];
static size_t length;
static uint16_t tags[8];
static uint32_t lens[8];
static uint8_t values[512];
static size_t count, bytes;
static volatile uint32_t sink;

static double now(void) {
    struct timespec t;
    clock_gettime(CLOCK_MONOTONIC, &t);
    return 1e9 * (double)t.tv_sec + (double)t.tv_nsec;
}

static void our_read(void) { sink = m2ua_read(message, length).code; }

static void our_write(void) {
    static uint8_t out[M2UA_MAX_MESSAGE];
    sink = (uint32_t)m2ua_write(message[2], message[3], tags, count, lens, count, values, bytes, out, sizeof out).length;
}

static void osmo_read(void) {
    struct xua_msg *x = xua_from_msg(message[0], (uint16_t)length, message);
    sink = x->hdr.msg_class;
    xua_msg_free(x);
}

static void osmo_write(void) {
    struct xua_msg *x = xua_msg_alloc();
    const uint8_t *value = values;
    x->hdr = XUA_HDR(message[2], message[3]);
    for (size_t i = 0; i < count; value += lens[i++]) xua_msg_add_data(x, tags[i], (uint16_t)lens[i], value);
    struct msgb *m = xua_to_msg(1, x);
    sink = m->len;
    msgb_free(m);
    xua_msg_free(x);
}

static double took(void (*f)(void)) {
    double start = now();
    for (int i = 0; i < CALLS; i++) f();
    return (now() - start) / CALLS;
}

static void compare(const char *what, void (*ours)(void), void (*osmo)(void)) {
    double a = 1e18, b = 1e18;
    for (int i = 0; i < ROUNDS; i++) {
        double x = took(ours), y = took(osmo);
        if (x < a) a = x;
        if (y < b) b = y;
    }
    printf("%-28s %8.1f %8.1f\n", what, a, b);
}

/* The message of a list, and the same from both writers. */
static int load(uint8_t class_, uint8_t type, size_t n, const uint16_t *t, const uint32_t *l, const uint8_t *v) {
    count = n;
    bytes = 0;
    for (size_t i = 0; i < n; i++) tags[i] = t[i], lens[i] = l[i], bytes += l[i];
    memcpy(values, v, bytes);
    m2ua_written w = m2ua_write(class_, type, tags, n, lens, n, values, bytes, message, sizeof message);
    length = w.length;
    struct xua_msg *x = xua_msg_alloc();
    x->hdr = XUA_HDR(class_, type);
    const uint8_t *value = values;
    for (size_t i = 0; i < n; value += lens[i++]) xua_msg_add_data(x, tags[i], (uint16_t)lens[i], value);
    struct msgb *m = xua_to_msg(1, x);
    int same = w.code == 0 && m->len == length && memcmp(m->data, message, length) == 0;
    msgb_free(m);
    xua_msg_free(x);
    return same;
}

int main(void) {
    static const uint8_t m[12] = {0, 0, 0, 1, 0, 0, 0, 100, 0, 0, 0, 115};
    static uint8_t data[68] = {0, 0, 0, 100};
    printf("%-28s %8s %8s\n", "nanoseconds of one call", "m2ua", "osmo");
    if (!load(4, 1, 2, (uint16_t[]){0xb, 0x8}, (uint32_t[]){4, 8}, m)) return printf("the two write M otherwise\n"), 1;
    compare("read sample M", our_read, osmo_read);
    compare("write sample M", our_write, osmo_write);
    if (!load(6, 1, 2, (uint16_t[]){0x1, 0x300}, (uint32_t[]){4, 64}, data)) return printf("the two write Data otherwise\n"), 1;
    compare("read Data of 84 bytes", our_read, osmo_read);
    compare("write Data of 84 bytes", our_write, osmo_write);
    return 0;
}
