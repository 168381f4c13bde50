/* How deep the stack goes in each entry: it runs on a painted stack of its own, and the deepest byte that
 * lost its paint is counted from the caller's. */
#include <stdio.h>
#include <stdlib.h>
#include <string.h>
#include <ucontext.h>
#include "m2ua.h"

enum { BYTES = 1 << 18, PAINT = 0xa7 };
static unsigned char stack[BYTES];
static ucontext_t outside, inside;
static m2ua_gateway state;
static const uint8_t *msg;
static size_t len, place, at;
static uint32_t kind;
static uint8_t out[65536], hold[M2UA_HOLD_BYTES], kept[M2UA_HOLD_BYTES];
static m2ua_room room;
static m2ua_reading reading;
static m2ua_written written;
static m2ua_loaded loaded;
static m2ua_done done;
static m2ua_handled handled;
static m2ua_outcome outcome;
static m2ua_batch batch;
static m2ua_answer answer;
static m2ua_timers timers;
static m2ua_param_at found;
static uint32_t sound, lens[M2UA_MAX_ORDERS];

static void nothing(void) {}
static void do_read(void) { reading = m2ua_read(msg, len); }
static void do_load(void) { loaded = m2ua_load(msg, len); }
static void do_sound(void) { sound = m2ua_is_sound(&state); }
static void do_event(void) { done = m2ua_event(&state, kind, place, msg, len, hold, sizeof hold, room.words, M2UA_LIST_WORDS); }
static void do_handle(void) { handled = m2ua_handle(&state, kind, place, msg, len, hold, sizeof hold, &room); }
static void do_by_value(void) { outcome = m2ua_event_by_value(state, kind, place, msg, len, hold, sizeof hold, room.words, M2UA_LIST_WORDS); }
static void do_order(void) { written = m2ua_order(&state, kind, place, msg, len, hold, sizeof hold, at, out, sizeof out); }
static void do_orders(void) { batch = m2ua_orders(&state, kind, place, msg, len, hold, sizeof hold, 0, lens, M2UA_MAX_ORDERS, out, sizeof out); }
static void do_waits(void) { timers = m2ua_waits(state.waiting, &loaded.gateway); }
static void do_place(void) { answer = m2ua_link_place(&state, 127); }
static void do_state(void) { answer = m2ua_as_state(&state, 15); }
static void do_parameter(void) { found = m2ua_parameter(msg, len, M2UA_TAG_INFO); }
static void do_write(void) {
    const uint16_t tag = M2UA_TAG_HEARTBEAT;
    const uint32_t length = 2000;
    written = m2ua_write(M2UA_CLASS_ASPSM, M2UA_TYPE_BEAT, &tag, 1, &length, 1, out, 2000, out + 4096, M2UA_MAX_MESSAGE);
}

static size_t depth(void (*f)(void)) {
    memset(stack, PAINT, BYTES);
    getcontext(&inside);
    inside.uc_stack.ss_sp = stack;
    inside.uc_stack.ss_size = BYTES;
    inside.uc_link = &outside;
    makecontext(&inside, f, 0);
    swapcontext(&outside, &inside);
    size_t i = 0;
    while (i < BYTES && stack[i] == PAINT) i++;
    return BYTES - i;
}

static int worst;
static void measure(const char *what, void (*f)(void)) {
    depth(f); /* a first call through the linker's table goes deeper */
    size_t d = depth(f) - depth(nothing);
    printf("%-44s %5zu bytes of stack\n", what, d);
    if (d > M2UA_STACK) worst = 1;
}

/* An event by each of its calls, from the same state and hold; the last one is kept. */
static void measure_event(const char *what) {
    static void (*const calls[3])(void) = {do_by_value, do_event, do_handle};
    static const char *const names[3] = {"m2ua_event_by_value", "m2ua_event", "m2ua_handle"};
    char line[64];
    for (int i = 0; i < 3; i++) {
        const m2ua_gateway before = state;
        size_t most = 0;
        memcpy(kept, hold, sizeof hold);
        for (int again = 0; again < 2; again++) { /* a first call through the linker's table goes deeper */
            state = before;
            memcpy(hold, kept, sizeof hold);
            most = depth(calls[i]) - depth(nothing);
        }
        if (most > M2UA_STACK) worst = 1;
        snprintf(line, sizeof line, "%s, %s", names[i], what);
        printf("%-44s %5zu bytes of stack\n", line, most);
        if (i < 2) state = before, memcpy(hold, kept, sizeof hold);
    }
}

/* 16 ASPs, members of 16 ASes in broadcast, with 8 links each: an Active where every AS holds 8 units, and
 * which names all links and one that there is not, has the most orders. */
static size_t full_plan(uint8_t *file) {
    const uint8_t head[24] = {0, 0, 0, 24, 0, 0, 0, 16, 0, 0, 0, 152, 0, 0, 0, 16, 0, 0, 0, 216, 0, 0, 0, 128};
    memset(file, 0, M2UA_MAX_PLAN);
    memcpy(file, head, sizeof head);
    for (int i = 0; i < 16; i++) {
        file[24 + 8 * i + 3] = (uint8_t)i;
        file[24 + 8 * i + 4] = file[24 + 8 * i + 5] = 0xff;
        file[152 + 4 * i + 3] = M2UA_MODE_BROADCAST;
    }
    for (int i = 0; i < 128; i++) {
        file[216 + 8 * i + 3] = (uint8_t)i;
        file[216 + 8 * i + 7] = (uint8_t)(i / 8);
    }
    return M2UA_MAX_PLAN;
}

/* ASP 0 becomes inactive everywhere, so that all ASes are pending; each gets the longest unit on each of its
 * links. */
static void pend(void) {
    static const uint8_t inactive[8] = {1, 0, 4, 2, 0, 0, 0, 8};
    static uint8_t data[304] = {1, 0, 6, 1, 0, 0, 1, 0x30, 0, 1, 0, 8, 0, 0, 0, 0, 0, 0x13, 0, 8, 0, 0, 0, 5, 3, 0, 1, 0x15};
    place = 0, msg = inactive, len = sizeof inactive;
    do_event();
    kind = M2UA_LINK_MESSAGE, msg = data, len = sizeof data;
    for (int i = 0; i < 128; i++) {
        data[15] = (uint8_t)i;
        if (i == 0) measure_event("Data held");
        else do_event();
    }
    kind = M2UA_MESSAGE;
}

int main(void) {
    static uint8_t file[M2UA_MAX_PLAN], longest[M2UA_MAX_MESSAGE];
    static const uint8_t up[8] = {1, 0, 3, 1, 0, 0, 0, 8}, active[8] = {1, 0, 4, 1, 0, 0, 0, 8};
    static const uint8_t list[20] = {1, 0, 4, 1, 0, 0, 0, 20, 0, 8, 0, 12, 0, 0, 0, 0, 0, 0, 0, 128};
    static const uint8_t ind[24] = {1, 0, 6, 9, 0, 0, 0, 24, 0, 1, 0, 8, 0, 0, 0, 100, 3, 3, 0, 8, 0, 0, 0, 1};
    msg = file, len = full_plan(file);
    measure("m2ua_load, full plan", do_load);
    if (loaded.code) return 1;
    state = loaded.gateway;
    measure("m2ua_is_sound, full plan", do_sound);
    for (place = 0; place < 16; place++) {
        msg = up, len = sizeof up;
        do_event();
    }
    place = 0, msg = active, len = sizeof active;
    measure_event("Active");
    const m2ua_gateway on = state;
    msg = up, len = sizeof up;
    measure_event("Up, 258 orders");
    if (handled.count != 258) return printf("an Up has %zu orders\n", handled.count), 1;
    state = on;
    pend();
    const m2ua_gateway pending = state;
    place = 0, msg = active, len = sizeof active;
    measure_event("128 units out");
    if (handled.count != 385) return printf("an Active with 128 units has %zu orders\n", handled.count), 1;
    state = pending, msg = list, len = sizeof list;
    measure_event("the same in part");
    if (handled.count != M2UA_MAX_ORDERS) return printf("an Active that succeeds in part has %zu orders\n", handled.count), 1;
    state = pending;
    measure("m2ua_order, its Ack", do_order);
    at = 2;
    measure("m2ua_order, one of its units", do_order);
    measure("m2ua_orders, all of them", do_orders);
    if (batch.code || batch.count != M2UA_MAX_ORDERS) return printf("a batch has %zu orders\n", batch.count), 1;
    printf("%-44s %5zu bytes to send\n", "(all its messages)", batch.length);
    if (batch.length != handled.length) return printf("one call has %zu bytes\n", handled.length), 1;
    measure("m2ua_waits", do_waits);
    measure("m2ua_link_place", do_place);
    measure("m2ua_as_state", do_state);
    kind = M2UA_LINK_MESSAGE, msg = ind, len = sizeof ind;
    measure_event("link side");
    kind = M2UA_MESSAGE;
    memcpy(longest, (uint8_t[]){1, 0, 4, 1, 0, 0, 8, 0, 0, 8, 7, 0xf4}, 12);
    for (size_t i = 12; i + 8 <= 2044; i += 8) longest[i + 7] = longest[i + 3] = (uint8_t)(i / 8);
    longest[2044] = 0, longest[2045] = 4, longest[2046] = 0, longest[2047] = 4;
    msg = longest, len = sizeof longest;
    measure("m2ua_read, 2,048 bytes", do_read);
    measure("m2ua_parameter, the same", do_parameter);
    measure_event("the same");
    measure("m2ua_write, 2,016 bytes", do_write);
    if (reading.code || written.code) return printf("reading %u, writing %u\n", reading.code, written.code), 1;
    printf("stack: %s (limit %d)\n", worst ? "MORE than the header says" : "ok", M2UA_STACK);
    return worst;
}
