/* A small host: it loads a plan, lets two ASPs take turns, a link come up, units go both ways, an ASP fetch
 * what a high-speed link has not sent, a list of links succeed in part, an association break, units wait
 * until the other ASP takes over, and the recovery time run out. What a host sends, which units wait, and
 * which timers it starts, is printed. (rust/m2ua/examples/scenario.rs is the same in Rust; tools/try/hosts
 * compares what both print.) Usage: scenario PLAN, with examples/plans/high-speed.txt compiled; or scenario
 * words. */
#include <stdlib.h>
#include <string.h>
#include "m2ua.h"
#include "m2ua_text.h"

/* What a host keeps: the state, the hold that goes with it, and the room that it lends. */
static m2ua_gateway gateway;
static uint8_t hold[M2UA_HOLD_BYTES];
static m2ua_room room;

static void fail(const char *what, uint32_t code) {
    fprintf(stderr, "%s: %u (%s)\n", what, code, m2ua_code_text(code));
    exit(1);
}

/* ---- Messages: what the ASPs and the links would send */

typedef struct {
    uint8_t bytes[M2UA_MAX_MESSAGE];
    size_t length;
} message;

/* One message, whose parameters have values of 4 bytes or more. */
static message written(uint8_t class_, uint8_t type, size_t count, const uint16_t *tags, const uint32_t *lens, const uint8_t *values) {
    static const uint16_t no_tags[1];
    static const uint32_t no_lens[1];
    static const uint8_t no_values[1];
    message m;
    size_t bytes = 0;
    for (size_t i = 0; i < count; i++) bytes += lens[i];
    m2ua_written w = m2ua_write(class_, type, count ? tags : no_tags, count, count ? lens : no_lens, count, count ? values : no_values, bytes, m.bytes, sizeof m.bytes);
    if (w.code) fail("m2ua_write", w.code);
    if (m2ua_read(m.bytes, w.length).code) fail("m2ua_read", m2ua_read(m.bytes, w.length).code);
    m.length = w.length;
    return m;
}

static message plain(uint8_t class_, uint8_t type) { return written(class_, type, 0, NULL, NULL, NULL); }

/* ---- Orders: what a host does with them */

/* Sends a message to an ASP. Here it is printed; a host writes it to the ASP's association. */
static void send_to_asp(uint32_t asp, const uint8_t *bytes, size_t length) {
    printf("    %zu bytes to ASP %u: ", length, asp);
    for (size_t i = 0; i < length; i++) printf("%02x", bytes[i]);
    printf("\n");
}

/* Hands a unit to a link. Here it is printed; a host gives it to MTP2. */
static void send_to_link(uint32_t id, const uint8_t *msg, size_t len) {
    m2ua_data_at unit = m2ua_data(msg, len);
    printf("    unit (%s) to link %u: ", m2ua_parameter(msg, len, M2UA_TAG_DATA_1).found ? "0x300" : "0x301", id);
    for (size_t i = 0; i < unit.length; i++) printf("%02x", msg[unit.start + i]);
    printf("\n");
}

static size_t place_of(uint32_t id) {
    m2ua_answer place = m2ua_link_place(&gateway, id);
    if (place.code) fail("m2ua_link_place", place.code);
    return place.value;
}

/* Asks a link for its BSN, or for the messages after a sequence number. Here it is printed; a host asks MTP2.
 * The link can have the number: the event has seen to it. */
static void retrieve(uint32_t id, const uint8_t *msg, size_t len) {
    m2ua_reading r = m2ua_read(msg, len);
    const char *kind = gateway.highspeed[place_of(id)] ? "high-speed" : "plain";
    if (r.sequenced) printf("    messages of link %u (%s) after %u\n", id, kind, r.sequence);
    else printf("    BSN of link %u (%s)\n", id, kind);
}

/* The units that an AS holds since an event, with their bytes in the hold; or how many it holds no longer. */
static void units(const m2ua_units *before, const m2ua_units *after, unsigned a) {
    unsigned was = before->count[a], is = after->count[a];
    for (unsigned k = was; k < is; k++) {
        size_t i = a * M2UA_HELD_MOST + k, start = m2ua_hold_at(a, k);
        printf("  AS %u holds a unit (0x%x) of link %u: ", a, after->tag[i], after->id[i]);
        for (size_t j = start; j + 4 < start + after->length[i]; j++) printf("%02x", hold[j]);
        if (after->marked[i]) printf(", correlation id %u", after->correlation[i]);
        printf("\n");
    }
    if (is < was) printf("  units that AS %u no longer holds: %u\n", a, was - is);
}

/* What has changed: the states of ASes, the timers that start and stop, the units held. */
static void changes(const m2ua_gateway *before) {
    static const char *const names[] = {"down", "?", "inactive", "active", "pending"};
    for (unsigned a = 0; a < gateway.ases; a++) {
        m2ua_answer was = m2ua_as_state(before, a), is = m2ua_as_state(&gateway, a);
        if (was.code || is.code) fail("m2ua_as_state", was.code ? was.code : is.code);
        if (was.value != is.value) printf("  AS %u is %s\n", a, names[is.value]);
        if (room.timers.began[a]) printf("  timer: start T(r) of AS %u\n", a);
        if (room.timers.ended[a]) printf("  timer: stop T(r) of AS %u\n", a);
        units(&before->held, &gateway.held, a);
    }
}

/* What the event would have sent at a place, asked of the state before it, is the same message. */
static void same(const m2ua_gateway *before, const uint8_t *kept, uint32_t kind, size_t index, const uint8_t *msg, size_t len, size_t place, const uint8_t *sent) {
    static uint8_t single[M2UA_MAX_MESSAGE];
    static uint32_t lens[1];
    m2ua_written w = m2ua_order(before, kind, index, msg, len, kept, M2UA_HOLD_BYTES, place, single, sizeof single);
    if (w.code || w.length != room.lens[place] || memcmp(single, sent, w.length)) fail("m2ua_order", w.code);
    m2ua_batch b = m2ua_orders(before, kind, index, msg, len, kept, M2UA_HOLD_BYTES, place, lens, 1, single, sizeof single);
    if (b.code || b.count != 1 || b.length != w.length || memcmp(single, sent, w.length)) fail("m2ua_orders", b.code);
}

/* An event: its orders in words and as bytes; then what has changed. */
static void happens(const char *what, uint32_t kind, size_t index, const uint8_t *msg, size_t len) {
    /* copied only to print what has changed, and to show m2ua_order: a host needs no copy */
    static uint8_t kept[M2UA_HOLD_BYTES];
    const m2ua_gateway before = gateway;
    memcpy(kept, hold, sizeof hold);
    char line[128];
    printf("%s\n", what);
    const m2ua_handled h = m2ua_handle(&gateway, kind, index, msg, len, hold, sizeof hold, &room);
    if (h.refusal) {
        printf("  refused: %u (%s)\n", h.refusal, m2ua_code_text(h.refusal));
        return;
    }
    const uint8_t *message = room.bytes;
    for (size_t j = 0; j < h.count; message += room.lens[j++]) {
        const uint32_t *order = room.words + M2UA_ORDER_WORDS * j;
        m2ua_order_text(order, line, sizeof line);
        printf("  %s\n", line);
        if (order[0] == M2UA_LINK_SIDE) {
            if (order[1] == M2UA_ORDER_DATA) send_to_link(order[2], msg, len);
            if (order[1] == M2UA_ORDER_RETRIEVAL_REQUEST) retrieve(order[2], msg, len);
            continue;
        }
        send_to_asp(order[0], message, room.lens[j]);
        same(&before, kept, kind, index, msg, len, j, message);
    }
    changes(&before);
}

static void asp_sends(const char *what, size_t asp, message m) { happens(what, M2UA_MESSAGE, asp, m.bytes, m.length); }
static const uint8_t none[1];
static void other(const char *what, uint32_t kind, size_t index) { happens(what, kind, index, none, 0); }
static void link_sends(const char *what, message m) { happens(what, M2UA_LINK_MESSAGE, 0, m.bytes, m.length); }

/* ---- The scenario */

/* What an ASP asks of a link, and what the link answers: its identifier, then numbers of 32 bits. */
static message numbers(uint8_t type, uint8_t id, size_t count, const uint16_t *more, const uint16_t *given) {
    uint16_t tags[4] = {M2UA_TAG_INTERFACE_ID};
    uint8_t values[16] = {0, 0, 0, id};
    for (size_t i = 1; i <= count; i++) {
        tags[i] = more[i - 1];
        values[4 * i + 2] = (uint8_t)(given[i - 1] >> 8);
        values[4 * i + 3] = (uint8_t)given[i - 1];
    }
    return written(M2UA_CLASS_MAUP, type, 1 + count, tags, (const uint32_t[]){4, 4, 4, 4}, values);
}

static message asks_bsn(uint8_t id) {
    return numbers(M2UA_TYPE_RETRIEVAL_REQUEST, id, 1, (const uint16_t[]){M2UA_TAG_RETRIEVAL_ACTION}, (const uint16_t[]){M2UA_RETRIEVE_BSN});
}

static message asks_messages(uint8_t id, uint16_t after) {
    return numbers(M2UA_TYPE_RETRIEVAL_REQUEST, id, 2, (const uint16_t[]){M2UA_TAG_RETRIEVAL_ACTION, M2UA_TAG_SEQUENCE}, (const uint16_t[]){M2UA_RETRIEVE_MESSAGES, after});
}

static message has_bsn(uint8_t id, uint16_t bsn) {
    return numbers(M2UA_TYPE_RETRIEVAL_CONFIRM, id, 3, (const uint16_t[]){M2UA_TAG_RETRIEVAL_ACTION, M2UA_TAG_RETRIEVAL_RESULT, M2UA_TAG_SEQUENCE},
                   (const uint16_t[]){M2UA_RETRIEVE_BSN, 0, bsn});
}

/* Link 200 is a high-speed one, link 100 a plain one. */
static void retrieval(message up, message active) {
    const uint8_t unsent[8] = {0, 0, 0, 200, 'L', 'A', 'S', 'T'};
    asp_sends("other comes up", 2, up);
    asp_sends("other takes link 200", 2, active);
    asp_sends("other asks link 200 for its BSN", 2, asks_bsn(200));
    link_sends("link 200 has BSN 4095", has_bsn(200, 4095));
    asp_sends("other asks link 200 for the messages after 4095", 2, asks_messages(200, 4095));
    link_sends("link 200 hands one out",
               written(M2UA_CLASS_MAUP, M2UA_TYPE_RETRIEVAL_INDICATION, 2, (const uint16_t[]){M2UA_TAG_INTERFACE_ID, M2UA_TAG_DATA_1}, (const uint32_t[]){4, 4}, unsent));
    link_sends("that was the last", numbers(M2UA_TYPE_RETRIEVAL_COMPLETE, 200, 0, NULL, NULL));
    asp_sends("right asks link 100 for the messages after 127", 1, asks_messages(100, 127));
    asp_sends("right asks link 100 for the messages after 128", 1, asks_messages(100, 128));
    link_sends("link 100 has BSN 128, which a plain link cannot have", has_bsn(100, 128));
}

/* Links 114 to 116, of which the plan has two. Part of what left lists may succeed; what right lists is taken
 * all or none. */
static void lists(message active) {
    const uint16_t range = M2UA_TAG_INTERFACE_ID_RANGE;
    const uint32_t length = 8;
    const uint8_t three[8] = {0, 0, 0, 114, 0, 0, 0, 116};
    printf("lists taken whole: of left %u, of right %u\n", gateway.wholelists[0], gateway.wholelists[1]);
    asp_sends("left takes links 114 to 116 back, of which there are two", 0, written(M2UA_CLASS_ASPTM, M2UA_TYPE_ACTIVE, 1, &range, &length, three));
    asp_sends("right takes over again", 1, active);
    asp_sends("right gives up links 114 to 116, or none", 1, written(M2UA_CLASS_ASPTM, M2UA_TYPE_INACTIVE, 1, &range, &length, three));
}

static void scenario(void) {
    const uint8_t seven[4] = {0, 0, 0, 7}, link100[4] = {0, 0, 0, 100}, link200[4] = {0, 0, 0, 200};
    const uint8_t take[12] = {0, 0, 0, 1, 0, 0, 0, 100, 0, 0, 0, 115};
    /* link 100, a test message of MTP3 as the unit, a correlation id */
    const uint8_t unit[19] = {0, 0, 0, 100, 0x81, 0x02, 0x40, 0x00, 0x10, 0x11, 0x40, 'T', 'E', 'S', 'T', 0, 0, 0, 5};
    message up = plain(M2UA_CLASS_ASPSM, M2UA_TYPE_UP), active = plain(M2UA_CLASS_ASPTM, M2UA_TYPE_ACTIVE);
    message data = written(M2UA_CLASS_MAUP, M2UA_TYPE_DATA, 3, (const uint16_t[]){M2UA_TAG_INTERFACE_ID, M2UA_TAG_DATA_1, M2UA_TAG_CORRELATION_ID},
                           (const uint32_t[]){4, 11, 4}, unit);
    /* link 101, a correlation id, and behind it a unit with its length indicator */
    const uint8_t second[13] = {0, 0, 0, 101, 0, 0, 0, 6, 0x05, 'W', 'A', 'I', 'T'};
    message later = written(M2UA_CLASS_MAUP, M2UA_TYPE_DATA, 3, (const uint16_t[]){M2UA_TAG_INTERFACE_ID, M2UA_TAG_CORRELATION_ID, M2UA_TAG_DATA_2},
                            (const uint32_t[]){4, 4, 5}, second);
    message received = written(M2UA_CLASS_MAUP, M2UA_TYPE_DATA, 2, (const uint16_t[]){M2UA_TAG_INTERFACE_ID, M2UA_TAG_DATA_1}, (const uint32_t[]){4, 11}, unit);
    asp_sends("left comes up", 0, written(M2UA_CLASS_ASPSM, M2UA_TYPE_UP, 1, (const uint16_t[]){M2UA_TAG_ASP_ID}, (const uint32_t[]){4}, seven));
    asp_sends("left takes links 100 to 115", 0,
              written(M2UA_CLASS_ASPTM, M2UA_TYPE_ACTIVE, 2, (const uint16_t[]){M2UA_TAG_TRAFFIC_MODE, M2UA_TAG_INTERFACE_ID_RANGE}, (const uint32_t[]){4, 8}, take));
    asp_sends("right comes up", 1, up);
    asp_sends("right takes over", 1, active);
    asp_sends("right starts link 100", 1,
              written(M2UA_CLASS_MAUP, M2UA_TYPE_ESTABLISH_REQUEST, 1, (const uint16_t[]){M2UA_TAG_INTERFACE_ID}, (const uint32_t[]){4}, link100));
    other("link 100 is in service", M2UA_LINK_UP, place_of(100));
    asp_sends("right sends a unit on link 100", 1, data);
    link_sends("a unit comes in on link 100", received);
    asp_sends("right sends a heartbeat", 1,
              written(M2UA_CLASS_ASPSM, M2UA_TYPE_BEAT, 1, (const uint16_t[]){M2UA_TAG_HEARTBEAT}, (const uint32_t[]){5}, (const uint8_t *)"alive"));
    retrieval(up, active);
    asp_sends("left asks for a link of another AS", 0,
              written(M2UA_CLASS_ASPTM, M2UA_TYPE_ACTIVE, 1, (const uint16_t[]){M2UA_TAG_INTERFACE_ID}, (const uint32_t[]){4}, link200));
    happens("left sends three bytes", M2UA_MESSAGE, 0, up.bytes, 3);
    lists(active);
    other("the association of right is lost", M2UA_LOST, 1);
    link_sends("a unit comes in on link 100 and waits", received);
    link_sends("a unit comes in on link 101 and waits", later);
    asp_sends("left takes over in time", 0, active);
    asp_sends("left goes down", 0, plain(M2UA_CLASS_ASPSM, M2UA_TYPE_DOWN));
    link_sends("a unit comes in that nobody will take", later);
    other("the recovery time of AS 0 is over", M2UA_RECOVERY, 0);
    other("link 100 fails", M2UA_LINK_DOWN, place_of(100));
    other("an event of an ASP that there is not", M2UA_LOST, 3);
}

/* Every name, to be compared with the Rust crate's. */
static void words(void) {
    char line[128];
    for (uint32_t word = 0; word < 2048; word++) {
        if (!m2ua_message_name(word)) continue;
        for (uint32_t value = 0; value < 3; value++) {
            uint32_t order[4] = {value ? value : M2UA_LINK_SIDE, word, 100 + value, value};
            m2ua_order_text(order, line, sizeof line);
            printf("%s\n", line);
        }
    }
    for (uint32_t status = 65537; status < 65542; status++) {
        uint32_t order[4] = {1, M2UA_ORDER_NOTIFY, 2, status};
        m2ua_order_text(order, line, sizeof line);
        printf("%s\n", line);
    }
    for (uint32_t code = 0; code < 100; code++) {
        uint32_t order[4] = {1, M2UA_ORDER_ERROR, 5, code};
        m2ua_order_text(order, line, sizeof line);
        printf("%s\n", line);
    }
    for (uint32_t code = 1; code < 300; code++) printf("%u (%s)\n", code, m2ua_code_text(code));
}

int main(int argc, char **argv) {
    if (argc == 2 && strcmp(argv[1], "words") == 0) {
        words();
        return 0;
    }
    if (m2ua_abi() != M2UA_ABI) {
        fprintf(stderr, "the library has ABI %u, this program was compiled for %d\n", m2ua_abi(), M2UA_ABI);
        return 1;
    }
    static uint8_t file[M2UA_MAX_PLAN + 1];
    FILE *plan = argc == 2 ? fopen(argv[1], "rb") : NULL;
    if (!plan) {
        fprintf(stderr, "usage: scenario PLAN (a file that m2ua-plan compile has made)\n");
        return 2;
    }
    size_t length = fread(file, 1, sizeof file, plan);
    fclose(plan);
    m2ua_loaded loaded = m2ua_load(file, length);
    if (loaded.code) fail(argv[1], loaded.code);
    if (!m2ua_is_sound(&loaded.gateway)) fail("a fresh state", M2UA_REFUSED_STATE);
    gateway = loaded.gateway;
    printf("plan: %u ASPs, %u ASes, %u links\n", gateway.asps, gateway.ases, gateway.links);
    scenario();
    return 0;
}
