/* Counts the copies that m2ua_event and m2ua_handle make: the calls of memcpy and memmove (linked with
 * --wrap) of the state's size or more, and of bytes of the state, of which there may be those of a column.
 * What this file's own code copies is left out: it stands in a section of its own. `copies-check size` prints
 * the state's size. */
#include <stdio.h>
#include <string.h>
#include "m2ua.h"

#define HOST __attribute__((section("host_text"), noinline))
extern char __start_host_text[], __stop_host_text[];

static unsigned copies, columns;
static int failures;
static m2ua_gateway g;
static m2ua_room room;
static uint8_t hold[M2UA_HOLD_BYTES];

/* Copies of the state's size, and copies out of the state or into it. */
static void count(const void *to, const void *from, size_t bytes, const void *caller) {
    const char *at = caller, *state = (const char *)&g, *end = state + sizeof g, *x = to, *y = from;
    if (at >= __start_host_text && at < __stop_host_text) return;
    if (bytes >= sizeof(m2ua_gateway)) copies++;
    if (bytes > 4 && ((x >= state && x < end) || (y >= state && y < end))) columns++;
}

void *__real_memcpy(void *to, const void *from, size_t bytes);
void *__real_memmove(void *to, const void *from, size_t bytes);

void *__wrap_memcpy(void *to, const void *from, size_t bytes) {
    count(to, from, bytes, __builtin_return_address(0));
    return __real_memcpy(to, from, bytes);
}

void *__wrap_memmove(void *to, const void *from, size_t bytes) {
    count(to, from, bytes, __builtin_return_address(0));
    return __real_memmove(to, from, bytes);
}

/* An event by both calls, accepted or refused: no copy of the state; by the event alone none of a column,
 * with its messages those of the units' columns. */
HOST static void event(const char *what, uint32_t kind, const uint8_t *msg, size_t len, uint32_t refusal, size_t bytes, size_t words) {
    static uint8_t kept[M2UA_HOLD_BYTES];
    const uint8_t none = 0;
    const m2ua_gateway before = g;
    memcpy(kept, hold, sizeof hold);
    copies = columns = 0;
    const m2ua_done d = m2ua_event(&g, kind, 0, msg ? msg : &none, len, hold, bytes, room.words, words);
    const unsigned alone = copies + columns;
    g = before;
    memcpy(hold, kept, sizeof hold);
    copies = columns = 0;
    const m2ua_handled h = m2ua_handle(&g, kind, 0, msg ? msg : &none, len, hold, bytes, &room);
    const uint32_t expected = refusal == M2UA_REFUSED_LIST ? 0 : refusal; /* a room has all words */
    if (d.refusal == refusal && h.refusal == expected && alone == 0 && copies == 0 && columns <= 5) return;
    printf("copies-check: %s: refusals %u and %u, %u copies by the event, %u of the state and %u of columns with its messages\n", what, d.refusal, h.refusal, alone, copies, columns);
    failures++;
}

HOST int main(int argc, char **argv) {
    if (argc > 1 && strcmp(argv[1], "size") == 0) {
        printf("%zu\n", sizeof(m2ua_gateway));
        return 0;
    }
    /* ASP 0 in AS 0, override, with link 100 */
    const uint8_t file[44] = {0, 0, 0, 24, 0, 0, 0, 1, 0, 0, 0, 32, 0, 0, 0, 1, 0, 0, 0, 36, 0, 0, 0, 1,
                              0, 0, 0, 7, 0, 1, 0, 0, 0, 0, 0, 1, 0, 0, 0, 100, 0, 0, 0, 0};
    static const struct {
        const char *what;
        uint32_t kind;
        uint8_t msg[40];
        size_t len;
    } events[] = {
        {"Up", M2UA_MESSAGE, {1, 0, 3, 1, 0, 0, 0, 8}, 8},
        {"Beat", M2UA_MESSAGE, {1, 0, 3, 3, 0, 0, 0, 8}, 8},
        {"an Error", M2UA_MESSAGE, {1, 0, 0, 0, 0, 0, 0, 8}, 8},
        {"an unreadable message", M2UA_MESSAGE, {2, 0, 3, 1, 0, 0, 0, 8}, 8},
        {"Active", M2UA_MESSAGE, {1, 0, 4, 1, 0, 0, 0, 8}, 8},
        {"Active with an identifier", M2UA_MESSAGE, {1, 0, 4, 1, 0, 0, 0, 16, 0, 1, 0, 8, 0, 0, 0, 100}, 16},
        {"Active with an identifier and a bad one", M2UA_MESSAGE, {1, 0, 4, 1, 0, 0, 0, 20, 0, 1, 0, 12, 0, 0, 0, 100, 0, 0, 0, 101}, 20},
        {"Active with a bad one", M2UA_MESSAGE, {1, 0, 4, 1, 0, 0, 0, 16, 0, 1, 0, 8, 0, 0, 0, 101}, 16},
        {"Establish", M2UA_MESSAGE, {1, 0, 6, 2, 0, 0, 0, 16, 0, 1, 0, 8, 0, 0, 0, 100}, 16},
        {"link up", M2UA_LINK_UP, {0}, 0},
        {"Data", M2UA_MESSAGE, {1, 0, 6, 1, 0, 0, 0, 28, 0, 1, 0, 8, 0, 0, 0, 100, 3, 0, 0, 9, 1, 2, 3, 4, 5, 0, 0, 0}, 28},
        {"Data of the link side", M2UA_LINK_MESSAGE, {1, 0, 6, 1, 0, 0, 0, 28, 0, 1, 0, 8, 0, 0, 0, 100, 3, 0, 0, 9, 1, 2, 3, 4, 5, 0, 0, 0}, 28},
        {"Retrieval Request", M2UA_MESSAGE, {1, 0, 6, 10, 0, 0, 0, 32, 0, 1, 0, 8, 0, 0, 0, 100, 3, 6, 0, 8, 0, 0, 0, 2, 3, 7, 0, 8, 0, 0, 0, 127}, 32},
        {"Retrieval Request that the link cannot have", M2UA_MESSAGE, {1, 0, 6, 10, 0, 0, 0, 32, 0, 1, 0, 8, 0, 0, 0, 100, 3, 6, 0, 8, 0, 0, 0, 2, 3, 7, 0, 8, 0, 0, 15, 255}, 32},
        {"Retrieval Confirm", M2UA_LINK_MESSAGE, {1, 0, 6, 11, 0, 0, 0, 40, 0, 1, 0, 8, 0, 0, 0, 100, 3, 6, 0, 8, 0, 0, 0, 1, 3, 7, 0, 8, 0, 0, 0, 127, 3, 8, 0, 8, 0, 0, 0, 0}, 40},
        {"Release", M2UA_MESSAGE, {1, 0, 6, 4, 0, 0, 0, 16, 0, 1, 0, 8, 0, 0, 0, 100}, 16},
        {"link down", M2UA_LINK_DOWN, {0}, 0},
        {"Inactive", M2UA_MESSAGE, {1, 0, 4, 2, 0, 0, 0, 8}, 8},
        {"Data held", M2UA_LINK_MESSAGE, {1, 0, 6, 1, 0, 0, 0, 28, 0, 1, 0, 8, 0, 0, 0, 100, 3, 0, 0, 9, 1, 2, 3, 4, 5, 0, 0, 0}, 28},
        {"Active that sends it out", M2UA_MESSAGE, {1, 0, 4, 1, 0, 0, 0, 8}, 8},
        {"Inactive again", M2UA_MESSAGE, {1, 0, 4, 2, 0, 0, 0, 8}, 8},
        {"Data held again", M2UA_LINK_MESSAGE, {1, 0, 6, 1, 0, 0, 0, 28, 0, 1, 0, 8, 0, 0, 0, 100, 3, 0, 0, 9, 1, 2, 3, 4, 5, 0, 0, 0}, 28},
        {"recovery over", M2UA_RECOVERY, {0}, 0},
        {"Down", M2UA_MESSAGE, {1, 0, 3, 2, 0, 0, 0, 8}, 8},
        {"lost", M2UA_LOST, {0}, 0},
    };
    const uint8_t confirm[40] = {1, 0, 6, 11, 0, 0, 0, 40, 0, 1, 0, 8, 0, 0, 0, 100, 3, 6, 0, 8, 0, 0, 0, 1, 3, 7, 0, 8, 0, 0, 0, 128, 3, 8, 0, 8, 0, 0, 0, 0};
    g = m2ua_load(file, sizeof file).gateway;
    for (size_t k = 0; k < sizeof events / sizeof *events; k++) {
        event(events[k].what, events[k].kind, events[k].len ? events[k].msg : NULL, events[k].len, 0, sizeof hold, M2UA_LIST_WORDS);
    }
    event("a list of 1,543 words", M2UA_LOST, NULL, 0, 101, sizeof hold, M2UA_LIST_WORDS - 1);
    event("a hold of 34,943 bytes", M2UA_LOST, NULL, 0, 106, sizeof hold - 1, M2UA_LIST_WORDS);
    event("a Retrieval Confirm that the link cannot have", M2UA_LINK_MESSAGE, confirm, sizeof confirm, 102, sizeof hold, M2UA_LIST_WORDS);
    event("a kind that there is not", 6, NULL, 0, 102, sizeof hold, M2UA_LIST_WORDS);
    g.asps = 0;
    event("an unsound state", M2UA_LOST, NULL, 0, 105, sizeof hold, M2UA_LIST_WORDS);
    printf("copies of the state: %s\n", failures ? "FAILED" : "0 in every event, accepted or refused, with its messages and without");
    return failures != 0;
}
