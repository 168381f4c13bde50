/* Every entry of the library called once or more: messages read and written, plan S loaded, a short history
 * of its events (docs/RULES.md, 11.1 to 11.4, with a link established, in service and lost), what the ASPs
 * are sent, units that wait with a pending AS, sequence numbers of plain and high-speed links, and lists of
 * links that succeed in part or are taken whole. */
#include <stdio.h>
#include <string.h>
#include "m2ua.h"

static int failures;

static void expect(const char *what, uint32_t got, uint32_t want) {
    if (got == want) return;
    printf("%s: %u, expected %u\n", what, got, want);
    failures++;
}

static const uint8_t m[28] = {1, 0, 4, 1, 0, 0, 0, 28, 0, 0xb, 0, 8, 0, 0, 0, 1, 0, 8, 0, 12, 0, 0, 0, 100, 0, 0, 0, 115};

static void messages(void) {
    m2ua_reading r = m2ua_read(m, sizeof m);
    expect("code of M", r.code, 0);
    expect("class of M", r.class_, 4);
    expect("type of M", r.msgtype, 1);
    expect("identifiers in M", r.ids, 1);
    expect("mode of M", r.mode, 1);
    uint8_t other[28];
    memcpy(other, m, sizeof m);
    other[15] = 4;
    r = m2ua_read(other, sizeof other);
    expect("code with mode 4", r.code, 5);
    expect("class with mode 4", r.class_, 0);
    expect("code of no bytes", m2ua_read(m, 0).code, 7);

    const uint16_t tags[2] = {0xb, 0x8};
    const uint32_t lens[2] = {4, 8};
    uint8_t out[32];
    memset(out, 0xaa, sizeof out);
    const uint8_t values[12] = {0, 0, 0, 1, 0, 0, 0, 100, 0, 0, 0, 115};
    m2ua_written w = m2ua_write(4, 1, tags, 2, lens, 2, values, 12, out, 27);
    expect("code of M in 27 bytes", w.code, 103);
    expect("its buffer's first byte", out[0], 0xaa);
    w = m2ua_write(4, 1, tags, 2, lens, 2, values, 12, out, sizeof out);
    expect("code of M written", w.code, 0);
    expect("M written", w.length == 28 && memcmp(out, m, 28) == 0, 1);
    expect("the byte behind it", out[28], 0xaa);
}

/* Plan S: ASPs 7 and 8 in AS 0, override, with links 100 to 115; ASP 9 in AS 1, load-share, with link 200. In
 * plan S itself the kind of link 200 is 0 (plain), and the spare of ASP 8 is 0 (part of a list may
 * succeed). */
static m2ua_loaded plan_of(uint16_t kind, uint16_t spare, size_t len) {
    uint8_t file[192] = {0, 0, 0, 24, 0, 0, 0, 3, 0, 0, 0, 48, 0, 0, 0, 2, 0, 0, 0, 56, 0, 0, 0, 17,
                         0, 0, 0, 7, 0, 1, 0, 0, 0, 0, 0, 8, 0, 1, 0, 0, 0, 0, 0, 9, 0, 2, 0, 0, 0, 0, 0, 1, 0, 0, 0, 2};
    for (int i = 0; i < 16; i++) file[59 + 8 * i] = (uint8_t)(100 + i);
    file[187] = 200;
    file[188] = (uint8_t)(kind >> 8);
    file[189] = (uint8_t)kind;
    file[191] = 1;
    file[38] = (uint8_t)(spare >> 8);
    file[39] = (uint8_t)spare;
    return m2ua_load(file, len);
}

static m2ua_loaded plan_with(uint16_t kind, size_t len) { return plan_of(kind, 0, len); }
static m2ua_loaded plan_s(size_t len) { return plan_of(0, 0, len); }

static uint32_t words[M2UA_LIST_WORDS];
static uint8_t hold[M2UA_HOLD_BYTES];
static m2ua_room room;
static const uint8_t none[1];

/* An event was accepted with these orders, four words each; all their messages read and are as long as is
 * said. */
static void orders(const char *what, m2ua_handled h, size_t count, const uint32_t *expected) {
    size_t at = 0;
    expect(what, h.refusal, 0);
    expect(what, (uint32_t)h.count, (uint32_t)count);
    for (size_t i = 0; i < 4 * count; i++) expect(what, room.words[i], expected[i]);
    for (size_t j = 0; j < h.count; at += room.lens[j++]) {
        if (room.words[4 * j] == M2UA_LINK_SIDE) expect(what, room.lens[j], 0);
        else expect(what, m2ua_read(room.bytes + at, room.lens[j]).code, 0);
    }
    expect(what, (uint32_t)h.length, (uint32_t)at);
}

/* The timers that the last event starts and stops, AS a as bit a. */
static void timers(const char *what, uint32_t began, uint32_t ended) {
    uint32_t starts = 0, stops = 0;
    for (unsigned a = 0; a < M2UA_MAX_ASES; a++) starts |= (uint32_t)room.timers.began[a] << a, stops |= (uint32_t)room.timers.ended[a] << a;
    expect(what, starts, began);
    expect(what, stops, ended);
}

static void events(m2ua_gateway g) {
    const uint8_t up[8] = {1, 0, 3, 1, 0, 0, 0, 8};
    const uint8_t establish[16] = {1, 0, 6, 2, 0, 0, 0, 16, 0, 1, 0, 8, 0, 0, 0, 100};
    const uint8_t indication[24] = {1, 0, 6, 9, 0, 0, 0, 24, 0, 1, 0, 8, 0, 0, 0, 100, 3, 3, 0, 8, 0, 0, 0, 1};
    expect("refusal with 1,543 words", m2ua_event(&g, M2UA_MESSAGE, 0, up, sizeof up, hold, sizeof hold, words, M2UA_LIST_WORDS - 1).refusal, 101);
    expect("refusal with a hold of 34,943 bytes", m2ua_event(&g, M2UA_MESSAGE, 0, up, sizeof up, hold, sizeof hold - 1, words, M2UA_LIST_WORDS - 1).refusal, 106);
    orders("Up of ASP 0", m2ua_message(&g, 0, up, sizeof up, hold, sizeof hold, &room), 2, (uint32_t[]){0, 772, 0, 0, 0, 1, 0, 65538});
    expect("ASP 0 is up", g.up[0], 1);
    orders("M of ASP 0", m2ua_message(&g, 0, m, sizeof m, hold, sizeof hold, &room), 2, (uint32_t[]){0, 1027, 0, 0, 0, 1, 0, 65539});
    orders("Up of ASP 1", m2ua_message(&g, 1, up, sizeof up, hold, sizeof hold, &room), 1, (uint32_t[]){1, 772, 0, 0});
    orders("Establish", m2ua_message(&g, 0, establish, sizeof establish, hold, sizeof hold, &room), 1, (uint32_t[]){255, 1538, 100, 0});
    orders("link up", m2ua_link_up(&g, 0, hold, sizeof hold, &room), 1, (uint32_t[]){0, 1539, 100, 0});
    expect("the link is in service", g.state[0], 2);
    orders("State Indication", m2ua_link_message(&g, indication, sizeof indication, hold, sizeof hold, &room), 1, (uint32_t[]){0, 1545, 100, 0});
    orders("link down", m2ua_link_down(&g, 0, hold, sizeof hold, &room), 1, (uint32_t[]){0, 1542, 100, 0});
    expect("the link is idle", g.state[0], 0);
    orders("association of ASP 0 lost", m2ua_lost(&g, 0, hold, sizeof hold, &room), 1, (uint32_t[]){1, 1, 0, 65540});
    expect("AS 0 waits", g.waiting[0], 1);
    timers("its timer starts", 1, 0);
    expect("a refused event", m2ua_lost(&g, 3, hold, sizeof hold, &room).refusal, 102);
    timers("and no timer", 0, 0);
    orders("recovery of AS 0 over", m2ua_recovery(&g, 0, hold, sizeof hold, &room), 1, (uint32_t[]){1, 1, 0, 65538});
    expect("AS 0 waits no longer", g.waiting[0], 0);
    timers("its timer stops", 0, 1);
    expect("a kind that there is not", m2ua_handle(&g, 6, 0, up, sizeof up, hold, sizeof hold, &room).refusal, 102);
    expect("a link beyond the plan", m2ua_link_up(&g, 17, hold, sizeof hold, &room).refusal, 102);
}

/* ---- Actions as bytes */

static uint8_t out[2048];
static uint32_t lens[4];

/* The same message by both forms: one action, and a batch of one. */
static void sent(const char *what, m2ua_written w, m2ua_batch b, size_t len, const uint8_t *expected) {
    expect(what, w.code, 0);
    expect(what, b.code, 0);
    expect(what, w.length == len && b.count == 1 && b.length == len && lens[0] == len, 1);
    expect(what, memcmp(out, expected, len) == 0 && memcmp(out + 1024, expected, len) == 0, 1);
    expect(what, m2ua_read(out, w.length).code, 0);
}

/* What a host does with an event: one call, then it sends what the room has. Here each message is printed. */
static void send_all(m2ua_gateway *g, size_t asp, const uint8_t *msg, size_t len) {
    const m2ua_handled h = m2ua_message(g, asp, msg, len, hold, sizeof hold, &room);
    const uint8_t *message = room.bytes;
    for (size_t j = 0; j < h.count; message += room.lens[j++]) {
        if (room.words[4 * j] == M2UA_LINK_SIDE) continue;
        printf("to ASP %u: ", room.words[4 * j]);
        for (size_t i = 0; i < room.lens[j]; i++) printf("%02x", message[i]);
        printf("\n");
    }
}

/* An event as words alone is that of the one call, and so it is by value, where the state stays. */
static void same(const m2ua_gateway *g, size_t asp, const uint8_t *msg, size_t len) {
    static uint8_t before[M2UA_HOLD_BYTES];
    m2ua_gateway by_call = *g, alone = *g;
    memcpy(before, hold, sizeof hold);
    const m2ua_handled h = m2ua_message(&by_call, asp, msg, len, hold, sizeof hold, &room);
    const m2ua_done d = m2ua_event(&alone, M2UA_MESSAGE, asp, msg, len, before, sizeof before, words, M2UA_LIST_WORDS);
    expect("an event as words alone", d.refusal == h.refusal && d.count == h.count && memcmp(&alone, &by_call, sizeof alone) == 0, 1);
    expect("its words", memcmp(words, room.words, 4 * 4 * h.count), 0);
    const m2ua_gateway kept = *g;
    const m2ua_outcome v = m2ua_event_by_value(*g, M2UA_MESSAGE, asp, msg, len, hold, sizeof hold, words, M2UA_LIST_WORDS);
    expect("an event by value", v.refusal == h.refusal && v.count == h.count && memcmp(&v.gateway, &by_call, sizeof by_call) == 0, 1);
    expect("the state that was given", memcmp(g, &kept, sizeof kept), 0);
    const m2ua_timers t = m2ua_waits(g->waiting, &by_call);
    expect("its timers", memcmp(&t, &room.timers, sizeof t), 0);
}

static void refusals(m2ua_gateway g, const uint8_t *up) {
    memset(out, 0xaa, 16);
    expect("an action beyond the last", m2ua_order(&g, M2UA_MESSAGE, 0, up, 8, hold, sizeof hold, 2, out, 16).code, 104);
    expect("an Up Ack in 7 bytes", m2ua_order(&g, M2UA_MESSAGE, 0, up, 8, hold, sizeof hold, 0, out, 7).code, 103);
    expect("an action of an ASP beyond the plan", m2ua_order(&g, M2UA_MESSAGE, 3, up, 8, hold, sizeof hold, 0, out, 16).code, 102);
    expect("a batch with no length", m2ua_orders(&g, M2UA_MESSAGE, 0, up, 8, hold, sizeof hold, 0, lens, 0, out, 16).code, 103);
    m2ua_batch b = m2ua_orders(&g, M2UA_MESSAGE, 0, up, 8, hold, sizeof hold, 2, lens, 4, out, 16);
    expect("a batch beyond the last", b.code == 104 && b.count == 0 && b.length == 0, 1);
    g.up[0] = 2;
    expect("an action where the state is not sound", m2ua_order(&g, M2UA_MESSAGE, 0, up, 8, hold, sizeof hold, 0, out, 16).code, 105);
    for (size_t i = 0; i < 16; i++) expect("a byte of a refused call", out[i], 0xaa);
    g.up[0] = 0;
    expect("an Up Ack", (uint32_t)m2ua_order(&g, M2UA_MESSAGE, 0, up, 8, hold, sizeof hold, 0, out, 16).length, 8);
    expect("the byte behind it", out[8], 0xaa);
}

/* A Notify of AS 0: its status, and its links 100 to 115. */
static const uint8_t *notify(uint8_t type, uint8_t information) {
    static uint8_t n[84] = {1, 0, 0, 1, 0, 0, 0, 84, 0, 0xd, 0, 8, 0, 0, 0, 0, 0, 1, 0, 68};
    n[13] = type;
    n[15] = information;
    for (int i = 0; i < 16; i++) n[23 + 4 * i] = (uint8_t)(100 + i);
    return n;
}

static void bytes(m2ua_gateway g) {
    const uint8_t up[8] = {1, 0, 3, 1, 0, 0, 0, 8};
    const uint8_t active[8] = {1, 0, 4, 1, 0, 0, 0, 8};
    const uint8_t establish[16] = {1, 0, 6, 2, 0, 0, 0, 16, 0, 1, 0, 8, 0, 0, 0, 100};
    const uint8_t confirm[16] = {1, 0, 6, 3, 0, 0, 0, 16, 0, 1, 0, 8, 0, 0, 0, 100};
    const uint8_t released[16] = {1, 0, 6, 6, 0, 0, 0, 16, 0, 1, 0, 8, 0, 0, 0, 100};
    /* spare and padding are passed on as zero */
    const uint8_t data[24] = {1, 9, 6, 1, 0, 0, 0, 24, 0, 1, 0, 8, 0, 0, 0, 100, 3, 0, 0, 5, 0x55, 9, 9, 9};
    const uint8_t passed[24] = {1, 0, 6, 1, 0, 0, 0, 24, 0, 1, 0, 8, 0, 0, 0, 100, 3, 0, 0, 5, 0x55, 0, 0, 0};
    uint8_t *second = out + 1024;
    refusals(g, up);
    m2ua_message(&g, 0, up, 8, hold, sizeof hold, &room);
    m2ua_message(&g, 0, m, sizeof m, hold, sizeof hold, &room);
    m2ua_message(&g, 1, up, 8, hold, sizeof hold, &room);
    sent("Notify to ASP 0, taken over", m2ua_order(&g, M2UA_MESSAGE, 1, active, 8, hold, sizeof hold, 1, out, 1024), m2ua_orders(&g, M2UA_MESSAGE, 1, active, 8, hold, sizeof hold, 1, lens, 4, second, 1024), 84, notify(2, 2));
    same(&g, 1, active, 8);
    send_all(&g, 1, active, 8);
    expect("an action to the link side", m2ua_order(&g, M2UA_MESSAGE, 1, establish, 16, hold, sizeof hold, 0, out, 1024).code, 104);
    m2ua_batch b = m2ua_orders(&g, M2UA_MESSAGE, 1, establish, 16, hold, sizeof hold, 0, lens, 4, second, 0);
    expect("a batch of it", b.code == 0 && b.count == 1 && b.length == 0 && lens[0] == 0, 1);
    m2ua_message(&g, 1, establish, 16, hold, sizeof hold, &room);
    sent("Establish Confirm", m2ua_order(&g, M2UA_LINK_UP, 0, none, 0, hold, sizeof hold, 0, out, 1024), m2ua_orders(&g, M2UA_LINK_UP, 0, none, 0, hold, sizeof hold, 0, lens, 4, second, 1024), 16, confirm);
    m2ua_link_up(&g, 0, hold, sizeof hold, &room);
    sent("Data passed on", m2ua_order(&g, M2UA_LINK_MESSAGE, 0, data, 24, hold, sizeof hold, 0, out, 1024), m2ua_orders(&g, M2UA_LINK_MESSAGE, 0, data, 24, hold, sizeof hold, 0, lens, 4, second, 1024), 24, passed);
    sent("Release Indication", m2ua_order(&g, M2UA_LINK_DOWN, 0, none, 0, hold, sizeof hold, 0, out, 1024), m2ua_orders(&g, M2UA_LINK_DOWN, 0, none, 0, hold, sizeof hold, 0, lens, 4, second, 1024), 16, released);
    sent("Notify, pending", m2ua_order(&g, M2UA_LOST, 1, none, 0, hold, sizeof hold, 0, out, 1024), m2ua_orders(&g, M2UA_LOST, 1, none, 0, hold, sizeof hold, 0, lens, 4, second, 1024), 84, notify(1, 4));
    m2ua_lost(&g, 1, hold, sizeof hold, &room);
    sent("Notify, inactive", m2ua_order(&g, M2UA_RECOVERY, 0, none, 0, hold, sizeof hold, 0, out, 1024), m2ua_orders(&g, M2UA_RECOVERY, 0, none, 0, hold, sizeof hold, 0, lens, 4, second, 1024), 84, notify(1, 2));
}

/* ---- Units held */

static const uint8_t longer[M2UA_HOLD_BYTES + 1];

/* Data of a link with one byte, and a correlation id in front of it. */
static const uint8_t *unit(uint8_t id, uint8_t byte) {
    static uint8_t d[32] = {1, 0, 6, 1, 0, 0, 0, 32, 0, 1, 0, 8, 0, 0, 0, 0, 0, 0x13, 0, 8, 0, 0, 0, 9, 3, 0, 0, 5};
    d[15] = id;
    d[28] = byte;
    return d;
}

/* ASP 0 is active and goes inactive: AS 0 is pending. Nine units come, of which the ninth is turned away; the
 * others go out as ASP 0 is active again. */
static void held(m2ua_gateway g) {
    const uint8_t up[8] = {1, 0, 3, 1, 0, 0, 0, 8}, active[8] = {1, 0, 4, 1, 0, 0, 0, 8}, inactive[8] = {1, 0, 4, 2, 0, 0, 0, 8};
    /* row order: the correlation id behind the data */
    uint8_t passed[32] = {1, 0, 6, 1, 0, 0, 0, 32, 0, 1, 0, 8, 0, 0, 0, 0, 3, 0, 0, 5, 0, 0, 0, 0, 0, 0x13, 0, 8, 0, 0, 0, 9};
    memset(hold, 0xee, sizeof hold);
    m2ua_message(&g, 0, up, 8, hold, sizeof hold, &room);
    m2ua_message(&g, 0, active, 8, hold, sizeof hold, &room);
    m2ua_message(&g, 0, inactive, 8, hold, sizeof hold, &room);
    for (uint8_t k = 0; k < 9; k++) orders("a unit for AS 0", m2ua_link_message(&g, unit(100 + k, k), 32, hold, sizeof hold, &room), 0, words);
    expect("units held", g.held.count[0], M2UA_HELD_MOST);
    for (unsigned k = 0; k < 8; k++) {
        expect("the link of a unit", g.held.id[k], 100 + k);
        expect("its tag, length and mark", g.held.tag[k] == 0x300 && g.held.length[k] == 5 && g.held.marked[k] == 1 && g.held.correlation[k] == 9, 1);
        expect("its byte", hold[m2ua_hold_at(0, k)], k);
        expect("the byte behind it", hold[m2ua_hold_at(0, k) + 1], 0xee);
    }
    expect("the hold of AS 1", hold[m2ua_hold_at(1, 0)], 0xee);
    expect("an action of a short hold", m2ua_order(&g, M2UA_MESSAGE, 0, active, 8, hold, sizeof hold - 1, 0, out, 1024).code, 106);
    expect("a batch of a long one", m2ua_orders(&g, M2UA_MESSAGE, 0, active, 8, longer, sizeof longer, 0, lens, 4, out, 1024).code, 106);
    for (uint8_t k = 0; k < 8; k++) {
        passed[15] = 100 + k;
        passed[20] = k;
        sent("a unit from the hold", m2ua_order(&g, M2UA_MESSAGE, 0, active, 8, hold, sizeof hold, 1 + k, out, 1024),
             m2ua_orders(&g, M2UA_MESSAGE, 0, active, 8, hold, sizeof hold, 1 + k, lens, 1, out + 1024, 1024), 32, passed);
    }
    m2ua_message(&g, 0, active, 8, hold, sizeof hold, &room);
    expect("the second order", room.words[5] == M2UA_ORDER_DATA && room.words[6] == 100, 1);
    expect("the last order", room.words[37] == M2UA_ORDER_NOTIFY && room.words[39] == M2UA_STATUS_AS_ACTIVE, 1);
    expect("units held by an active AS", g.held.count[0], 0);
    expect("its byte stays", hold[m2ua_hold_at(0, 7)], 7);
}

/* AS 0 is pending and a unit comes, but the hold that is lent is short: 106, by both calls, and every byte of
 * the state, the hold and what is lent for orders as it was. A state never says that there is a unit whose
 * bytes nobody wrote. */
static void lent_short(m2ua_gateway g) {
    static m2ua_room kept_room;
    static uint8_t kept_hold[M2UA_HOLD_BYTES];
    const uint8_t up[8] = {1, 0, 3, 1, 0, 0, 0, 8}, active[8] = {1, 0, 4, 1, 0, 0, 0, 8}, inactive[8] = {1, 0, 4, 2, 0, 0, 0, 8};
    m2ua_message(&g, 0, up, 8, hold, sizeof hold, &room);
    m2ua_message(&g, 0, active, 8, hold, sizeof hold, &room);
    m2ua_message(&g, 0, inactive, 8, hold, sizeof hold, &room);
    expect("AS 0 is pending", m2ua_as_state(&g, 0).value, M2UA_AS_PENDING);
    const m2ua_gateway kept = g;
    memset(hold, 0xd7, sizeof hold), memset(kept_hold, 0xd7, sizeof kept_hold);
    memset(&room, 0x35, sizeof room), memset(&kept_room, 0x35, sizeof kept_room);
    memset(&room.timers, 0, sizeof room.timers), memset(&kept_room.timers, 0, sizeof room.timers);
    for (size_t lent = 0; lent < M2UA_HOLD_BYTES; lent += 4993) {
        const m2ua_done d = m2ua_event(&g, M2UA_LINK_MESSAGE, 0, unit(100, 1), 32, hold, lent, room.words, M2UA_LIST_WORDS);
        const m2ua_handled h = m2ua_link_message(&g, unit(100, 1), 32, hold, lent, &room);
        expect("a unit without a hold", d.refusal == 106 && d.count == 0 && h.refusal == 106 && h.count == 0 && h.length == 0, 1);
        expect("the state is as it was", memcmp(&g, &kept, sizeof g), 0);
        expect("the hold is as it was", memcmp(hold, kept_hold, sizeof hold), 0);
        expect("the room is as it was", memcmp(&room, &kept_room, sizeof room), 0);
    }
    m2ua_link_message(&g, unit(100, 1), 32, hold, sizeof hold, &room);
    expect("a unit with the hold", g.held.count[0] == 1 && hold[0] == 1 && memcmp(&room, &kept_room, sizeof room) == 0, 1);
}

/* ---- Sequence numbers */

/* A Retrieval Request for the messages of a link after a sequence number. */
static const uint8_t *request(uint8_t id, uint16_t after) {
    static uint8_t q[32] = {1, 0, 6, 10, 0, 0, 0, 32, 0, 1, 0, 8, 0, 0, 0, 0, 3, 6, 0, 8, 0, 0, 0, 2, 3, 7, 0, 8};
    q[15] = id;
    q[30] = (uint8_t)(after >> 8);
    q[31] = (uint8_t)after;
    return q;
}

/* The Retrieval Confirm of a link with its BSN. */
static const uint8_t *confirm(uint8_t id, uint16_t bsn) {
    static uint8_t q[40] = {1, 0, 6, 11, 0, 0, 0, 40, 0, 1, 0, 8, 0, 0, 0, 0, 3, 6, 0, 8, 0, 0, 0, 1, 3, 8, 0, 8, 0, 0, 0, 0, 3, 7, 0, 8};
    q[15] = id;
    q[38] = (uint8_t)(bsn >> 8);
    q[39] = (uint8_t)bsn;
    return q;
}

static void sequence_read(void) {
    m2ua_reading r = m2ua_read(request(200, M2UA_MAX_SEQUENCE), 32);
    expect("a request after 4,095", r.code == 0 && r.sequenced == 1 && r.sequence == 4095 && r.retrieval == M2UA_RETRIEVE_MESSAGES, 1);
    r = m2ua_read(request(200, 0), 32);
    expect("a request after 0", r.code == 0 && r.sequenced == 1 && r.sequence == 0, 1);
    r = m2ua_read(request(200, M2UA_MAX_SEQUENCE + 1), 32);
    expect("a request after 4,096", r.code == 17 && r.sequenced == 0 && r.sequence == 0, 1);
    r = m2ua_read(m, sizeof m);
    expect("M has no sequence number", r.sequenced == 0 && r.sequence == 0, 1);
}

/* Link 200, of ASP 2, is a high-speed one; links 100 to 115, of ASP 0, are plain. */
static void sequences(m2ua_gateway g) {
    const uint8_t up[8] = {1, 0, 3, 1, 0, 0, 0, 8}, active[8] = {1, 0, 4, 1, 0, 0, 0, 8};
    const uint8_t error17[16] = {1, 0, 0, 0, 0, 0, 0, 16, 0, 0xc, 0, 8, 0, 0, 0, 17};
    for (size_t l = 0; l < M2UA_MAX_LINKS; l++) expect("the kind of a link", g.highspeed[l], l == 16);
    for (size_t p = 0; p < 3; p += 2) {
        m2ua_message(&g, p, up, 8, hold, sizeof hold, &room);
        m2ua_message(&g, p, active, 8, hold, sizeof hold, &room);
    }
    orders("a high-speed link and 4,095", m2ua_message(&g, 2, request(200, 4095), 32, hold, sizeof hold, &room), 1, (uint32_t[]){255, 1546, 200, 2});
    orders("a plain link and 127", m2ua_message(&g, 0, request(100, 127), 32, hold, sizeof hold, &room), 1, (uint32_t[]){255, 1546, 100, 2});
    orders("a plain link and 128", m2ua_message(&g, 0, request(100, 128), 32, hold, sizeof hold, &room), 1, (uint32_t[]){0, 0, 0, 17});
    sent("Error 17", m2ua_order(&g, M2UA_MESSAGE, 0, request(100, 128), 32, hold, sizeof hold, 0, out, 1024),
         m2ua_orders(&g, M2UA_MESSAGE, 0, request(100, 128), 32, hold, sizeof hold, 0, lens, 4, out + 1024, 1024), 16, error17);
    orders("an ASP that is down, before its number", m2ua_message(&g, 1, request(100, 128), 32, hold, sizeof hold, &room), 1, (uint32_t[]){1, 0, 0, 6});
    orders("BSN 4,095 of a high-speed link", m2ua_link_message(&g, confirm(200, 4095), 40, hold, sizeof hold, &room), 1, (uint32_t[]){2, 1547, 200, 0});
    sent("it is passed on", m2ua_order(&g, M2UA_LINK_MESSAGE, 0, confirm(200, 4095), 40, hold, sizeof hold, 0, out, 1024),
         m2ua_orders(&g, M2UA_LINK_MESSAGE, 0, confirm(200, 4095), 40, hold, sizeof hold, 0, lens, 4, out + 1024, 1024), 40, confirm(200, 4095));
    orders("BSN 127 of a plain link", m2ua_link_message(&g, confirm(100, 127), 40, hold, sizeof hold, &room), 1, (uint32_t[]){0, 1547, 100, 0});
    expect("BSN 128 of a plain link", m2ua_link_message(&g, confirm(100, 128), 40, hold, sizeof hold, &room).refusal, 102);
    g.highspeed[16] = 2;
    expect("a kind of 2 in a state", m2ua_is_sound(&g), 0);
    g.highspeed[16] = 0;
    expect("a plain link 200", m2ua_is_sound(&g), 1);
    g.highspeed[17] = 1;
    expect("a kind beyond the links", m2ua_is_sound(&g), 0);
}

/* M up to link 116, which there is not, of ASP 0 and of ASP 1, whose lists are taken whole. */
static void lists(m2ua_gateway g) {
    const uint8_t up[8] = {1, 0, 3, 1, 0, 0, 0, 8};
    const uint8_t error2[24] = {1, 0, 0, 0, 0, 0, 0, 24, 0, 0xc, 0, 8, 0, 0, 0, 2, 0, 1, 0, 8, 0, 0, 0, 116};
    uint8_t list[28], ack[84] = {1, 0, 4, 3, 0, 0, 0, 84, 0, 0xb, 0, 8, 0, 0, 0, 1, 0, 1, 0, 68};
    memcpy(list, m, sizeof m);
    list[27] = 116;
    for (uint8_t i = 0; i < 16; i++) ack[23 + 4 * i] = (uint8_t)(100 + i);
    for (size_t p = 0; p < M2UA_MAX_ASPS; p++) expect("whether lists are taken whole", g.wholelists[p], p == 1);
    for (size_t p = 0; p < 2; p++) m2ua_message(&g, p, up, 8, hold, sizeof hold, &room);
    sent("Ack of a part", m2ua_order(&g, M2UA_MESSAGE, 0, list, 28, hold, sizeof hold, 0, out, 1024),
         m2ua_orders(&g, M2UA_MESSAGE, 0, list, 28, hold, sizeof hold, 0, lens, 1, out + 1024, 1024), 84, ack);
    sent("Error 2 behind it", m2ua_order(&g, M2UA_MESSAGE, 0, list, 28, hold, sizeof hold, 1, out, 1024),
         m2ua_orders(&g, M2UA_MESSAGE, 0, list, 28, hold, sizeof hold, 1, lens, 1, out + 1024, 1024), 24, error2);
    orders("a list that succeeds in part", m2ua_message(&g, 0, list, 28, hold, sizeof hold, &room), 4,
               (uint32_t[]){0, 1027, 0, 0, 0, 0, 116, 2, 0, 1, 0, 65539, 1, 1, 0, 65539});
    expect("ASP 0 is active", g.active[0], 1);
    orders("a list taken whole", m2ua_message(&g, 1, list, 28, hold, sizeof hold, &room), 1, (uint32_t[]){1, 0, 116, 2});
    expect("ASP 1 is not", g.active[1], 0);
    list[15] = 2;
    orders("another mode, of a part", m2ua_message(&g, 0, list, 28, hold, sizeof hold, &room), 1, (uint32_t[]){0, 0, 0, 5});
    g.wholelists[1] = 2;
    expect("a mark of 2 in a state", m2ua_is_sound(&g), 0);
    g.wholelists[1] = 0;
    expect("lists of ASP 1 in part", m2ua_is_sound(&g), 1);
    g.wholelists[3] = 1;
    expect("a mark beyond the ASPs", m2ua_is_sound(&g), 0);
}

int main(void) {
    messages();
    sequence_read();
    expect("code of plan S cut short", plan_s(191).code, 201);
    m2ua_loaded plan = plan_s(192);
    expect("code of plan S", plan.code, 0);
    expect("identifier of its last ASP", plan.gateway.aspid[2], 9);
    expect("its state is consistent", m2ua_is_sound(&plan.gateway), 1);
    events(plan.gateway);
    bytes(plan.gateway);
    held(plan.gateway);
    lent_short(plan.gateway);
    expect("code of a plan with a kind of 2", plan_with(2, 192).code, 202);
    expect("code of one with a kind of 256", plan_with(256, 192).code, 202);
    expect("code of one with a high-speed link", plan_with(1, 192).code, 0);
    sequences(plan_with(1, 192).gateway);
    expect("code of a plan with a spare of 2", plan_of(0, 2, 192).code, 202);
    expect("code of one with a spare of 256", plan_of(0, 256, 192).code, 202);
    expect("code of one with whole lists", plan_of(0, 1, 192).code, 0);
    lists(plan_of(0, 1, 192).gateway);
    plan.gateway.up[0] = 2;
    expect("a flag of 2 is not", m2ua_is_sound(&plan.gateway), 0);
    printf("C example: %s\n", failures ? "FAILED" : "ok");
    return failures != 0;
}
