/* The M2UA side (RFC 3331) of a signalling gateway, for hosts in C and C++. What it does is in docs/RULES.md,
 * to which "Rule" refers; docs/HOST.md is the guide for hosts, m2ua(3) the short one. Link libm2ua.a or
 * -lm2ua (tools/build/install). tools/check/header-check compares this file with the proved sources.
 *
 * It needs C11 or C++11, and a 64-bit x86 machine, for which the library is compiled.
 *
 * The library is a set of functions. It has no state of its own, allocates nothing, opens nothing and never
 * waits; it ends on every input. The host owns the gateway's state, an m2ua_gateway, and lends it: an event
 * works on it where it lies. A host keeps, for each gateway, an m2ua_gateway and a hold, and for each thread
 * an m2ua_room; for each thing that happens it calls m2ua_handle, once, and carries out what the room says.
 * - Threads: any number of threads may call any function at any time; one state, with its hold, is lent to
 *   one event at a time, and nobody reads the two during it. A room is lent to one call at a time.
 * - Stack: a call takes less than M2UA_STACK bytes, its arguments and result included.
 * - Pointers: a pointer and the count behind it lend so many elements for the time of the call; a pointer to
 *   a struct lends that struct. It is aligned for its type and not null, also where the count is 0: then lend
 *   any byte of your own. (That a null with a count of 0 is not touched was tried, and is not proved.) What
 *   is written to (the state and the hold of an event, a room, `words`, `lens`, `out`) overlaps nothing else
 *   that is lent. What is lent for reading is not changed by anybody during the call, and is never written.
 * - The hold: the bytes of the units that wait with a pending AS (Rule 5.22), M2UA_HOLD_BYTES for each
 *   gateway, zero or not at the start. The state says which units there are, the hold has their bytes, so the
 *   two are copied, stored and thrown away together. Nobody but events writes either.
 * - Every value of every other argument is allowed, and answered. A refusal leaves the lent memory as it was.
 * - The functions whose names end in _at are what the library exports. They take the state as its columns,
 *   one pointer each; the columns are those of one m2ua_gateway. Call the inline functions of this file in
 *   their place: these alone list the columns.
 * These duties are all that a host has; no call needs another call before it.
 *
 * Words: an ASP or AS is named by its number and a link by its place, all from 0 in the order of the plan's
 * rows. An ASP's identifier, and the interface identifier of a link, are numbers that the plan gives them and
 * that messages carry. */
#ifndef M2UA_H
#define M2UA_H
#include <stddef.h>
#include <stdint.h>

/* Raised by each change of a struct, a limit or an entry that hosts must be compiled anew for; the number of
 * the shared library's name (CHANGELOG.md). */
#define M2UA_ABI 5
#define M2UA_VERSION "0.6.0"

#ifdef __cplusplus
#define M2UA_STATIC_ASSERT(holds, what) static_assert(holds, what)
extern "C" {
#else
#define M2UA_STATIC_ASSERT(holds, what) _Static_assert(holds, what)
#endif

/* The ABI of the library that is linked: a host that may meet another one compares it with M2UA_ABI before
 * all else. */
uint32_t m2ua_abi(void);

/* ---- Numbers ---- */

/* Limits. */
enum {
    M2UA_MAX_ASPS = 16,
    M2UA_MAX_ASES = 16,
    M2UA_MAX_LINKS = 128,
    M2UA_PAIRS = 256,        /* places for an AS and an ASP: as * 16 + asp */
    M2UA_MAX_MESSAGE = 2048, /* bytes of a message */
    M2UA_MAX_DATA = 273,     /* bytes of its protocol data */
    M2UA_MAX_PLAN = 1240,    /* bytes of a plan file */
    M2UA_ORDER_WORDS = 4,    /* words of an order */
    M2UA_MAX_ORDERS = 386,   /* orders of an event */
    M2UA_LIST_WORDS = 1544,  /* words that an event must be lent */
    M2UA_HELD_MOST = 8,      /* units that an AS holds */
    M2UA_UNITS = 128,        /* places for units: as * 8 + unit, the oldest 0 */
    M2UA_HOLD_PLACE = 273,   /* bytes of a place in the hold */
    M2UA_HOLD_BYTES = 34944, /* bytes of the hold */
    M2UA_ROOM_BYTES = 790528, /* bytes that all messages of an event go into, whatever it is */
    M2UA_STACK = 32768       /* bytes of stack that a call takes at most (tools/check/stack) */
};

/* The largest sequence number (0x307): of a high-speed link, which is the largest that reads, and of a plain
 * one (Rule 5.23). */
enum { M2UA_MAX_SEQUENCE = 4095, M2UA_MAX_SEQUENCE_PLAIN = 127 };

/* Where messages come from: SCTP port and payload protocol identifier of M2UA. */
enum { M2UA_PORT = 2904, M2UA_PPID = 2 };

/* The addressee of an order that is not an ASP. */
enum { M2UA_LINK_SIDE = 255 };

/* Refusals (Rule 6.7). Those of the reader and the writer are the Error codes below. */
enum {
    M2UA_OK = 0,
    M2UA_REFUSED_LIST = 101,   /* the lent list has fewer than M2UA_LIST_WORDS words */
    M2UA_REFUSED_PLACE = 102,  /* no such kind of event; an ASP, AS or link beyond the plan; a message of the link side that does not fit, also by its sequence number
                                * (Rule 6.5) */
    M2UA_REFUSED_BUFFER = 103, /* the lent buffer is too short */
    M2UA_REFUSED_ORDER = 104,  /* the event has no such order, or it goes to the link side */
    M2UA_REFUSED_STATE = 105,  /* the state is not sound (Rule 5.4) */
    M2UA_REFUSED_HOLD = 106,   /* the lent hold has another length than M2UA_HOLD_BYTES */
    M2UA_REFUSED_LAYOUT = 201, /* plan file: a count, an offset or the length is wrong (Rule 4.4) */
    M2UA_REFUSED_ROW = 202     /* plan file: a row is wrong (Rule 4.5) */
};

/* Error codes (RFC 3331, 3.3.3.1): the reader's verdicts (Rule 2.9), and the value of an Error order
 * (Rule 8.4). The gateway gives those with a star. */
enum {
    M2UA_ERROR_INVALID_VERSION = 1,           /* * */
    M2UA_ERROR_INVALID_INTERFACE_ID = 2,      /* * in orders alone: unknown, or of an AS without this ASP. Alone, or behind the Ack of a list that succeeds in part */
    M2UA_ERROR_UNSUPPORTED_CLASS = 3,         /* * */
    M2UA_ERROR_UNSUPPORTED_TYPE = 4,          /* * */
    M2UA_ERROR_UNSUPPORTED_MODE = 5,          /* * */
    M2UA_ERROR_UNEXPECTED_MESSAGE = 6,        /* * in orders alone */
    M2UA_ERROR_PROTOCOL = 7,                  /* * size or length field; the writer also: tags, lengths and values do not fit together */
    M2UA_ERROR_UNSUPPORTED_ID_TYPE = 8,       /* * an identifier as text */
    M2UA_ERROR_INVALID_STREAM = 9,
    M2UA_ERROR_MANAGEMENT_BLOCKING = 13,
    M2UA_ERROR_ASP_ID_REQUIRED = 14,
    M2UA_ERROR_INVALID_ASP_ID = 15,           /* * in orders alone: an Up with an identifier that is not the plan's */
    M2UA_ERROR_ASP_ACTIVE_FOR_ID = 16,
    M2UA_ERROR_INVALID_VALUE = 17,            /* *; in orders also: a Retrieval Request with a sequence number that its link cannot have */
    M2UA_ERROR_PARAMETER_FIELD = 18,          /* * */
    M2UA_ERROR_UNEXPECTED_PARAMETER = 19,     /* * */
    M2UA_ERROR_MISSING_PARAMETER = 22         /* * */
};

/* Message classes. */
enum { M2UA_CLASS_MGMT = 0, M2UA_CLASS_ASPSM = 3, M2UA_CLASS_ASPTM = 4, M2UA_CLASS_MAUP = 6 };

/* Message types, class by class (Rule 2.10). */
enum { M2UA_TYPE_ERROR = 0, M2UA_TYPE_NOTIFY = 1 };
enum { M2UA_TYPE_UP = 1, M2UA_TYPE_DOWN = 2, M2UA_TYPE_BEAT = 3, M2UA_TYPE_UP_ACK = 4, M2UA_TYPE_DOWN_ACK = 5, M2UA_TYPE_BEAT_ACK = 6 };
enum { M2UA_TYPE_ACTIVE = 1, M2UA_TYPE_INACTIVE = 2, M2UA_TYPE_ACTIVE_ACK = 3, M2UA_TYPE_INACTIVE_ACK = 4 };
enum {
    M2UA_TYPE_DATA = 1,
    M2UA_TYPE_ESTABLISH_REQUEST = 2,
    M2UA_TYPE_ESTABLISH_CONFIRM = 3,
    M2UA_TYPE_RELEASE_REQUEST = 4,
    M2UA_TYPE_RELEASE_CONFIRM = 5,
    M2UA_TYPE_RELEASE_INDICATION = 6,
    M2UA_TYPE_STATE_REQUEST = 7,
    M2UA_TYPE_STATE_CONFIRM = 8,
    M2UA_TYPE_STATE_INDICATION = 9,
    M2UA_TYPE_RETRIEVAL_REQUEST = 10,
    M2UA_TYPE_RETRIEVAL_CONFIRM = 11,
    M2UA_TYPE_RETRIEVAL_INDICATION = 12,
    M2UA_TYPE_RETRIEVAL_COMPLETE = 13,
    M2UA_TYPE_CONGESTION_INDICATION = 14,
    M2UA_TYPE_DATA_ACK = 15
};

/* The second word of an order (Rule 8.1): class * 256 + type. Orders to ASPs, orders to the link side, or
 * both. */
enum {
    M2UA_ORDER_ERROR = 0,
    M2UA_ORDER_NOTIFY = 1,
    M2UA_ORDER_UP_ACK = 772,
    M2UA_ORDER_DOWN_ACK = 773,
    M2UA_ORDER_BEAT_ACK = 774,
    M2UA_ORDER_ACTIVE_ACK = 1027,
    M2UA_ORDER_INACTIVE_ACK = 1028,
    M2UA_ORDER_DATA = 1537,                   /* both */
    M2UA_ORDER_ESTABLISH_REQUEST = 1538,      /* to the link side */
    M2UA_ORDER_ESTABLISH_CONFIRM = 1539,
    M2UA_ORDER_RELEASE_REQUEST = 1540,        /* to the link side */
    M2UA_ORDER_RELEASE_CONFIRM = 1541,
    M2UA_ORDER_RELEASE_INDICATION = 1542,
    M2UA_ORDER_STATE_REQUEST = 1543,          /* to the link side; its value is the state */
    M2UA_ORDER_STATE_CONFIRM = 1544,
    M2UA_ORDER_STATE_INDICATION = 1545,
    M2UA_ORDER_RETRIEVAL_REQUEST = 1546,      /* to the link side; its value is the retrieval action */
    M2UA_ORDER_RETRIEVAL_CONFIRM = 1547,
    M2UA_ORDER_RETRIEVAL_INDICATION = 1548,
    M2UA_ORDER_RETRIEVAL_COMPLETE = 1549,
    M2UA_ORDER_CONGESTION_INDICATION = 1550,
    M2UA_ORDER_DATA_ACK = 1551                /* its value is the correlation id */
};

/* The value of a Notify order (Rule 8.5): status type * 65536 + status information. */
enum {
    M2UA_STATUS_AS_INACTIVE = 65538,
    M2UA_STATUS_AS_ACTIVE = 65539,
    M2UA_STATUS_AS_PENDING = 65540,
    M2UA_STATUS_OTHER_ACTIVE = 131074         /* another ASP has taken over (override) */
};

/* Parameter tags (Rules 2.10, 2.15, 2.16). */
enum {
    M2UA_TAG_INTERFACE_ID = 0x1,
    M2UA_TAG_TEXT_ID = 0x3,                   /* refused: 8 or 19 */
    M2UA_TAG_INFO = 0x4,
    M2UA_TAG_DIAGNOSTIC = 0x7,
    M2UA_TAG_INTERFACE_ID_RANGE = 0x8,
    M2UA_TAG_HEARTBEAT = 0x9,
    M2UA_TAG_TRAFFIC_MODE = 0xb,
    M2UA_TAG_ERROR_CODE = 0xc,
    M2UA_TAG_STATUS = 0xd,
    M2UA_TAG_ASP_ID = 0x11,
    M2UA_TAG_CORRELATION_ID = 0x13,
    M2UA_TAG_DATA_1 = 0x300,                  /* protocol data */
    M2UA_TAG_DATA_2 = 0x301,                  /* the same with the length indicator (TTC) */
    M2UA_TAG_STATE = 0x302,                   /* of a State Request or Confirm: M2UA_STATE_.. */
    M2UA_TAG_STATE_EVENT = 0x303,             /* of a State Indication: M2UA_EVENT_.. */
    M2UA_TAG_CONGESTION = 0x304,              /* 0 to 3 */
    M2UA_TAG_DISCARD = 0x305,                 /* 0 to 3 */
    M2UA_TAG_RETRIEVAL_ACTION = 0x306,        /* M2UA_RETRIEVE_.. */
    M2UA_TAG_SEQUENCE = 0x307,                /* 0 to 4095; of a plain link to 127 (Rule 5.23) */
    M2UA_TAG_RETRIEVAL_RESULT = 0x308         /* 0 done, 1 not */
};

/* State of an AS (Rule 5.2): active if a member is active; else pending while it waits; else inactive if a
 * member is up; else down. */
enum { M2UA_AS_DOWN = 0, M2UA_AS_INACTIVE = 2, M2UA_AS_ACTIVE = 3, M2UA_AS_PENDING = 4 };

/* State of a link (Rule 5.1). */
enum { M2UA_LINK_IDLE = 0, M2UA_LINK_STARTING = 1, M2UA_LINK_IN_SERVICE = 2, M2UA_LINK_STOPPING = 3 };

/* Traffic modes. */
enum { M2UA_MODE_OVERRIDE = 1, M2UA_MODE_LOADSHARE = 2, M2UA_MODE_BROADCAST = 3 };

/* Values of 0x302, 0x303 and 0x306 (RFC 3331, 3.3.1.5 to 3.3.1.9). */
enum {
    M2UA_STATE_LPO_SET = 0,
    M2UA_STATE_LPO_CLEAR = 1,
    M2UA_STATE_EMERGENCY_SET = 2,
    M2UA_STATE_EMERGENCY_CLEAR = 3,
    M2UA_STATE_FLUSH_BUFFERS = 4,
    M2UA_STATE_CONTINUE = 5,
    M2UA_STATE_CLEAR_RTB = 6,
    M2UA_STATE_AUDIT = 7,
    M2UA_STATE_CONGESTION_CLEAR = 8,
    M2UA_STATE_CONGESTION_ACCEPT = 9,
    M2UA_STATE_CONGESTION_DISCARD = 10
};
enum { M2UA_EVENT_RPO_ENTER = 1, M2UA_EVENT_RPO_EXIT = 2, M2UA_EVENT_LPO_ENTER = 3, M2UA_EVENT_LPO_EXIT = 4 };
enum { M2UA_RETRIEVE_BSN = 1, M2UA_RETRIEVE_MESSAGES = 2 };

/* ---- Reading a message ---- */

/* What reading a message gives (Rule 2.18). Of a refused message `code` is its number, and the rest 0. A
 * number that is not given is 0. */
typedef struct {
    uint32_t code;        /* M2UA_OK, or an Error code */
    uint32_t class_;      /* M2UA_CLASS_.. */
    uint32_t msgtype;     /* M2UA_TYPE_.. */
    uint32_t ids;         /* 1 where identifiers or ranges of them are given */
    uint32_t id;          /* the first interface identifier */
    uint32_t mode;        /* M2UA_MODE_.. */
    uint32_t identified;  /* 1 where an ASP identifier is given .. */
    uint32_t aspid;       /* .. and it */
    uint32_t correlated;  /* 1 where a correlation id is given .. */
    uint32_t correlation; /* .. and it */
    uint32_t state;       /* of a State Request or Confirm */
    uint32_t retrieval;   /* of a Retrieval Request or Confirm */
    uint32_t sequenced;   /* 1 where a sequence number is given .. */
    uint32_t sequence;    /* .. and it, up to M2UA_MAX_SEQUENCE: whether the link can have it, events say */
} m2ua_reading;

/* Reads a message of `len` bytes, which may be any bytes.
 * Answers: `code` 0 and what the message says, or one of 1, 3, 4, 5, 7, 8, 17, 18, 19, 22 and zeros
 * (Rules 2.1 to 2.18). */
m2ua_reading m2ua_read(const uint8_t *msg, size_t len);

/* Where a part of a message lies: its first byte, counted from 0, and the number of its bytes. */
typedef struct {
    size_t start;
    size_t length;
} m2ua_data_at;

/* Where the protocol data of a message lies, the SS7 unit: the value of its first 0x300 or 0x301 (Rule 1.7).
 * Any bytes are answered; both numbers are 0 where there is none. It asks for no verdict: read the message
 * first. */
m2ua_data_at m2ua_data(const uint8_t *msg, size_t len);

/* The same with whether it is there: `found` is 1 or 0. */
typedef struct {
    uint32_t found;
    size_t start;
    size_t length;
} m2ua_param_at;

/* Where the value of the first parameter of a tag (M2UA_TAG_..) lies, without padding (Rule 1.8). Any bytes
 * are answered; zeros where there is none. */
m2ua_param_at m2ua_parameter(const uint8_t *msg, size_t len, uint16_t tag);

/* ---- Writing a message ---- */

/* What a write did (Rule 3.5): 0 and the bytes written, or the number of the refusal and 0. */
typedef struct {
    uint32_t code;
    size_t length;
} m2ua_written;

/* Writes the message of a class (M2UA_CLASS_..), a type (M2UA_TYPE_..) and a list of parameters in the order
 * given (Rule 3.1): their tags, the length of each value in bytes, and the values one behind the other. `out`
 * has `out_bytes` bytes; M2UA_MAX_MESSAGE are always enough. Answers: `code` 0 and the message's length, the
 * message at the start of `out` and the bytes behind it unchanged; or, in this order: 7 where the two counts
 * differ or the lengths do not add up to value_bytes; the number with which m2ua_read would refuse the
 * message; M2UA_REFUSED_BUFFER where `out` is short. Refused: length 0, `out` unchanged. */
m2ua_written m2ua_write(uint8_t class_, uint8_t msgtype, const uint16_t *tags, size_t tag_count, const uint32_t *lens, size_t len_count,
                        const uint8_t *values, size_t value_bytes, uint8_t *out, size_t out_bytes);

/* ---- The state ---- */

/* The units held for ASes that wait (Rule 5.21). Unit k of an AS, the oldest 0, is at index as *
 * M2UA_HELD_MOST + k of each column; its bytes are in the hold, from m2ua_hold_at(as, k) on. */
typedef struct {
    uint8_t count[M2UA_MAX_ASES];           /* how many units an AS holds */
    uint16_t tag[M2UA_UNITS];               /* M2UA_TAG_DATA_1 or M2UA_TAG_DATA_2 */
    uint16_t length[M2UA_UNITS];            /* the length field of its data: 4 more than the unit has bytes */
    uint16_t marked[M2UA_UNITS];            /* 1: it came with a correlation id */
    uint32_t id[M2UA_UNITS];                /* the interface identifier of the link that it came from */
    uint32_t correlation[M2UA_UNITS];       /* the correlation id, or 0 */
} m2ua_units;

/* Where the bytes of unit k of an AS begin in the hold (Rule 5.22). */
static inline size_t m2ua_hold_at(size_t as, size_t k) {
    return (as * M2UA_HELD_MOST + k) * M2UA_HOLD_PLACE;
}

/* The gateway's state (Rule 5.1), which the host keeps where it likes. Any bytes are a state; an event
 * refuses those that are not sound. Places beyond the counts hold 0. Hosts read it between events; only
 * m2ua_load and events write it. It may be copied, with its hold. */
typedef struct {
    uint8_t asps;                           /* how many of each the plan has */
    uint8_t ases;
    uint8_t links;
    uint8_t spare;                          /* 0 */
    uint32_t aspid[M2UA_MAX_ASPS];          /* ASP identifiers */
    uint8_t up[M2UA_MAX_ASPS];              /* 1: the ASP is up */
    uint8_t member[M2UA_PAIRS];             /* 1: the ASP has part in the AS; the place of a pair is as * 16 + asp */
    uint8_t active[M2UA_PAIRS];             /* 1: the ASP is active in the AS */
    uint8_t mode[M2UA_MAX_ASES];            /* M2UA_MODE_.. */
    uint8_t waiting[M2UA_MAX_ASES];         /* 1: the AS waits, so that its recovery timer T(r) has to run */
    uint32_t iid[M2UA_MAX_LINKS];           /* interface identifiers, ascending */
    uint8_t owner[M2UA_MAX_LINKS];          /* the AS that owns the link */
    uint8_t state[M2UA_MAX_LINKS];          /* M2UA_LINK_.. */
    uint8_t highspeed[M2UA_MAX_LINKS];      /* 1: a high-speed link (ITU-T Q.703, Annex A), with sequence numbers of 12 bits; 0: a plain one, with 7 */
    uint8_t wholelists[M2UA_MAX_ASPS];      /* 1: identifiers that the ASP lists are taken all or none; 0: part of a list may succeed (Rule 7.27) */
    m2ua_units held;                        /* units held */
} m2ua_gateway;

/* What loading a plan gives: 0 and a fresh state; or 201 or 202 and a state of zeros, on which every event is
 * refused. */
typedef struct {
    uint32_t code;
    m2ua_gateway gateway;
} m2ua_loaded;

/* Loads a plan file of `len` bytes, which may be any bytes (section 4 of the rules; m2ua-plan(1) makes such
 * files from text). Its numbers are big-endian. It begins with three pairs of 32 bits, for ASPs, ASes and
 * links: the byte where their rows start, and how many there are. Then the rows, one behind the other:
 *   ASP   32 bits: its identifier; 16: its ASes, bit a for AS a; 16: 1 where its lists of identifiers are
 *         taken all or none, else 0
 *   AS    32 bits: its traffic mode, M2UA_MODE_..
 *   link  32 bits: its interface identifier, above that of the row before; 16: its kind, 0 plain or 1
 *         high-speed; 16: the AS that owns it
 * Answers: 0 and the fresh state: all ASPs down, nobody active, no AS waiting, all links idle, no unit held;
 * or M2UA_REFUSED_LAYOUT or M2UA_REFUSED_ROW and zeros. */
m2ua_loaded m2ua_load(const uint8_t *file, size_t len);

/* The columns of a state as the exported functions take them: lent for reading, lent to an event, and
 * passed. */
#define M2UA_COLUMNS_READ \
    uint8_t asps, uint8_t ases, uint8_t links, uint8_t spare, const uint32_t *aspid, const uint8_t *up, \
    const uint8_t *member, const uint8_t *active, const uint8_t *mode, const uint8_t *waiting, \
    const uint32_t *iid, const uint8_t *owner, const uint8_t *state, const uint8_t *highspeed, \
    const uint8_t *wholelists, const uint8_t *count, const uint16_t *tag, const uint16_t *len, \
    const uint16_t *marked, const uint32_t *id, const uint32_t *correlation
#define M2UA_COLUMNS_WRITTEN \
    uint8_t asps, uint8_t ases, uint8_t links, uint8_t spare, const uint32_t *aspid, uint8_t *up, \
    const uint8_t *member, uint8_t *active, const uint8_t *mode, uint8_t *waiting, \
    const uint32_t *iid, const uint8_t *owner, uint8_t *state, const uint8_t *highspeed, \
    const uint8_t *wholelists, uint8_t *count, uint16_t *tag, uint16_t *len, \
    uint16_t *marked, uint32_t *id, uint32_t *correlation
#define M2UA_COLUMNS_OF(g) \
    (g)->asps, (g)->ases, (g)->links, (g)->spare, (g)->aspid, (g)->up, \
    (g)->member, (g)->active, (g)->mode, (g)->waiting, \
    (g)->iid, (g)->owner, (g)->state, (g)->highspeed, \
    (g)->wholelists, (g)->held.count, (g)->held.tag, (g)->held.length, \
    (g)->held.marked, (g)->held.id, (g)->held.correlation

/* 1 where the state is sound (Rule 5.4), else 0. What m2ua_load accepted and what events leave is sound: ask
 * this of a state that comes from elsewhere, as from a file or another node. */
uint32_t m2ua_is_sound_at(M2UA_COLUMNS_READ);

static inline uint32_t m2ua_is_sound(const m2ua_gateway *g) {
    return m2ua_is_sound_at(M2UA_COLUMNS_OF(g));
}

/* What a question about a state answers: 0 and the value, or the number of the refusal and 0. */
typedef struct {
    uint32_t code;
    uint32_t value;
} m2ua_answer;

/* The state of an AS, by its number: M2UA_AS_.. (Rule 5.17). Refused: M2UA_REFUSED_STATE, then
 * M2UA_REFUSED_PLACE for an AS beyond the plan. */
m2ua_answer m2ua_as_state_at(M2UA_COLUMNS_READ, size_t as);

static inline m2ua_answer m2ua_as_state(const m2ua_gateway *g, size_t as) {
    return m2ua_as_state_at(M2UA_COLUMNS_OF(g), as);
}

/* The place of the link with an interface identifier, as M2UA_LINK_UP and M2UA_LINK_DOWN take it (Rule 5.18).
 * Refused: M2UA_REFUSED_STATE, then M2UA_REFUSED_PLACE for an identifier that no link of the plan has. */
m2ua_answer m2ua_link_place_at(M2UA_COLUMNS_READ, uint32_t wanted);

static inline m2ua_answer m2ua_link_place(const m2ua_gateway *g, uint32_t wanted) {
    return m2ua_link_place_at(M2UA_COLUMNS_OF(g), wanted);
}

/* The recovery timers T(r) that an event asks for, by number of AS: 1 in `began` where the timer is to be
 * started, 1 in `ended` where it is to be stopped. */
typedef struct {
    uint8_t began[M2UA_MAX_ASES];
    uint8_t ended[M2UA_MAX_ASES];
} m2ua_timers;

/* Which ASes wait after an event and did not before, and the other way round (Rule 5.19), from the column
 * `waiting` before it and the state after it. m2ua_handle does this for you. Any bytes are answered. */
m2ua_timers m2ua_waits_at(const uint8_t *before, const uint8_t *after);

static inline m2ua_timers m2ua_waits(const uint8_t before[M2UA_MAX_ASES], const m2ua_gateway *after) {
    return m2ua_waits_at(before, after->waiting);
}

/* ---- Events ---- */

/* The kinds of event (Rule 6.1), and what `index` names. */
enum {
    M2UA_MESSAGE = 0,     /* a message of an ASP: its number */
    M2UA_LOST = 1,        /* the association of an ASP is lost: its number */
    M2UA_RECOVERY = 2,    /* the recovery time T(r) of an AS is over: its number */
    M2UA_LINK_UP = 3,     /* a link is in service: its place */
    M2UA_LINK_DOWN = 4,   /* a link is out of service: its place */
    M2UA_LINK_MESSAGE = 5 /* a message of the link side (6.1, 6.8, 6.9, 6.11 to 6.14), which names its link itself: any */
};

/* What a host lends to m2ua_handle and finds there: the recovery timers to start and to stop, the orders of
 * the event as words, four for each, the length of each order's message, and the messages one behind the
 * other. It is large, and an event touches only what it writes: keep one for each thread, as a static or on
 * the heap, and use it for all gateways. It need not be cleared. */
typedef struct {
    m2ua_timers timers;
    uint32_t words[M2UA_LIST_WORDS];
    uint32_t lens[M2UA_MAX_ORDERS];
    uint8_t bytes[M2UA_ROOM_BYTES];
} m2ua_room;

/* What it hands back: 0, the number of orders and the bytes of all their messages; or the refusal and
 * zeros. */
typedef struct {
    uint32_t refusal;
    size_t count;
    size_t length;
} m2ua_handled;

m2ua_handled m2ua_handle_at(M2UA_COLUMNS_WRITTEN, uint32_t kind, size_t index, const uint8_t *msg, size_t msg_bytes,
                            uint8_t *hold, size_t hold_bytes, uint32_t *words, uint32_t *lens, uint8_t *out,
                            size_t out_bytes);

/* An event (Rule 6.2) on the state where it lies, and the messages of all its orders (Rule 8.19): the one
 * call that a host needs. `msg` is read in kinds 0 and 5. `hold` is the gateway's hold: Data of the link side
 * for an AS that is pending is put there and gives no order (Rule 7.24); it goes out as an order as soon as
 * an ASP is active in the AS (Rule 7.25).
 *
 * An order is four words (Rule 8.1): the addressee (the number of an ASP, or M2UA_LINK_SIDE); M2UA_ORDER_..;
 * subject; value. In class 6 the subject is an interface identifier, in a Notify the number of an AS, in an
 * Error of code 2 the refused identifier, else 0; the value is said beside M2UA_ORDER_.., of an Error it is
 * the code, else 0. The orders are carried out in their sequence:
 *
 *     const m2ua_handled h = m2ua_handle(&gateway, M2UA_MESSAGE, asp, msg, len, hold, sizeof hold, &room);
 *     const uint8_t *message = room.bytes;
 *     for (size_t j = 0; j < h.count; message += room.lens[j], j++) {
 *         const uint32_t *order = room.words + M2UA_ORDER_WORDS * j;
 *         if (order[0] == M2UA_LINK_SIDE) to_the_link_side(order, msg, len);
 *         else to_the_asp(order[0], message, room.lens[j]);
 *     }
 *
 * Answers: `refusal` 0, the number of orders, at most M2UA_MAX_ORDERS, and the bytes of their messages. Then
 * ALL of them are there: words[4 * j] to words[4 * j + 3] are order j, lens[j] is the length of its message,
 * 0 for one to the link side; words, lens and bytes behind them stay; `timers` says which T(r) to start and
 * to stop; and the state is the next one. Or, in this order:
 * M2UA_REFUSED_STATE; M2UA_REFUSED_PLACE (a kind above 5; `index` beyond the plan; a message of the link side
 * that does not read, is of another type or has an unknown identifier, or a Retrieval Confirm has a sequence
 * number above M2UA_MAX_SEQUENCE_PLAIN and its link is a plain one); M2UA_REFUSED_HOLD (`hold_bytes` is not
 * M2UA_HOLD_BYTES). m2ua_handle_at is refused with M2UA_REFUSED_BUFFER behind these where `out` has fewer
 * than M2UA_ROOM_BYTES; the room of this file has them. Refused: zeros, no timer to start or to stop, and
 * every byte of the state, the hold, words, lens and bytes as it was.
 *
 * A message of an ASP that does not read is no refusal: it is answered by an Error order (Rule 6.8). So is a
 * Retrieval Request that asks a plain link for a sequence number above M2UA_MAX_SEQUENCE_PLAIN: where the ASP
 * is active for the link, by Error 17, and the link side is told nothing (Rule 7.14).
 * An Active or Inactive may name identifiers that the ASP cannot have beside those that it can. Then it acts
 * on the latter: the orders are the Ack, an Error of code 2 with the first of the former, and what follows in
 * the ASes; as bytes the Ack lists what was acted on (Rule 8.11). Where the ASP can have none of them, and
 * wherever the state has 1 for it in `wholelists`, the Error is all, and nothing changes. A traffic mode that
 * is not that of each AS acted on is Error 5 for the whole message (Rule 7.9). */
static inline m2ua_handled m2ua_handle(m2ua_gateway *g, uint32_t kind, size_t index, const uint8_t *msg, size_t len,
                                       uint8_t *hold, size_t hold_bytes, m2ua_room *room) {
    uint8_t before[M2UA_MAX_ASES];
    for (size_t a = 0; a < M2UA_MAX_ASES; a++) before[a] = g->waiting[a];
    const m2ua_handled handled = m2ua_handle_at(M2UA_COLUMNS_OF(g), kind, index, msg, len, hold, hold_bytes, room->words,
                                                room->lens, room->bytes, sizeof room->bytes);
    room->timers = m2ua_waits(before, g);
    return handled;
}

/* The six kinds by name. An event without a message lends none of a byte's bytes: what is lent is never
 * null. */
static inline m2ua_handled m2ua_message(m2ua_gateway *g, size_t asp, const uint8_t *msg, size_t len, uint8_t *hold,
                                        size_t hold_bytes, m2ua_room *room) {
    return m2ua_handle(g, M2UA_MESSAGE, asp, msg, len, hold, hold_bytes, room);
}

static inline m2ua_handled m2ua_without_message(m2ua_gateway *g, uint32_t kind, size_t index, uint8_t *hold,
                                                size_t hold_bytes, m2ua_room *room) {
    const uint8_t none = 0;
    return m2ua_handle(g, kind, index, &none, 0, hold, hold_bytes, room);
}

static inline m2ua_handled m2ua_lost(m2ua_gateway *g, size_t asp, uint8_t *hold, size_t hold_bytes, m2ua_room *room) {
    return m2ua_without_message(g, M2UA_LOST, asp, hold, hold_bytes, room);
}

static inline m2ua_handled m2ua_recovery(m2ua_gateway *g, size_t as, uint8_t *hold, size_t hold_bytes, m2ua_room *room) {
    return m2ua_without_message(g, M2UA_RECOVERY, as, hold, hold_bytes, room);
}

static inline m2ua_handled m2ua_link_up(m2ua_gateway *g, size_t link, uint8_t *hold, size_t hold_bytes, m2ua_room *room) {
    return m2ua_without_message(g, M2UA_LINK_UP, link, hold, hold_bytes, room);
}

static inline m2ua_handled m2ua_link_down(m2ua_gateway *g, size_t link, uint8_t *hold, size_t hold_bytes, m2ua_room *room) {
    return m2ua_without_message(g, M2UA_LINK_DOWN, link, hold, hold_bytes, room);
}

static inline m2ua_handled m2ua_link_message(m2ua_gateway *g, const uint8_t *msg, size_t len, uint8_t *hold, size_t hold_bytes,
                                             m2ua_room *room) {
    return m2ua_handle(g, M2UA_LINK_MESSAGE, 0, msg, len, hold, hold_bytes, room);
}

/* ---- Events as words alone ---- */

/* What an event hands back (Rule 6.2): 0 and the number of orders; or the refusal and 0. */
typedef struct {
    uint32_t refusal;
    size_t count;
} m2ua_done;

m2ua_done m2ua_event_at(M2UA_COLUMNS_WRITTEN, uint32_t kind, size_t index, const uint8_t *msg, size_t msg_bytes, uint8_t *hold,
                        size_t hold_bytes, uint32_t *words, size_t word_count);

/* The event alone, on the state where it lies, with its orders as words: for a host that writes messages
 * itself or needs none. The state before it is gone, and with it what m2ua_order and m2ua_orders (below)
 * would need: ask them first, or keep a copy, or call m2ua_handle.
 * Answers and refusals are those of m2ua_handle, but for the last one: M2UA_REFUSED_LIST, where `count` is
 * below M2UA_LIST_WORDS. Refused: every byte of the state, the hold and `words` as it was. */
static inline m2ua_done m2ua_event(m2ua_gateway *g, uint32_t kind, size_t index, const uint8_t *msg, size_t len, uint8_t *hold,
                                   size_t hold_bytes, uint32_t *words, size_t count) {
    return m2ua_event_at(M2UA_COLUMNS_OF(g), kind, index, msg, len, hold, hold_bytes, words, count);
}

/* The same by value: the state that is given stays, and the next one, or the same, is handed back. It copies
 * the state twice. */
typedef struct {
    uint32_t refusal;
    size_t count;
    m2ua_gateway gateway;
} m2ua_outcome;

static inline m2ua_outcome m2ua_event_by_value(m2ua_gateway g, uint32_t kind, size_t index, const uint8_t *msg, size_t len,
                                               uint8_t *hold, size_t hold_bytes, uint32_t *words, size_t count) {
    m2ua_outcome outcome;
    outcome.gateway = g;
    const m2ua_done done = m2ua_event(&outcome.gateway, kind, index, msg, len, hold, hold_bytes, words, count);
    outcome.refusal = done.refusal;
    outcome.count = done.count;
    return outcome;
}

/* ---- Orders as bytes, of an event that is not kept ---- */

/* What an event on a state would send: the state BEFORE the event is only read, and so is its hold, in which
 * a unit that goes out has its bytes (Rule 8.18). No list of words is lent, so nothing is refused with
 * M2UA_REFUSED_LIST. */

m2ua_written m2ua_order_at(M2UA_COLUMNS_READ, uint32_t kind, size_t index, const uint8_t *msg, size_t msg_bytes,
                           const uint8_t *hold, size_t hold_bytes, size_t place, uint8_t *out, size_t out_bytes);

/* Writes the order at a place, from 0, as the message that goes to its ASP (Rule 8.15). M2UA_MAX_MESSAGE
 * bytes of `out` are always enough.
 * Answers: `code` 0 and the message's length, the bytes behind it unchanged; or, in this order:
 * M2UA_REFUSED_STATE; M2UA_REFUSED_PLACE and M2UA_REFUSED_HOLD, as the event itself; M2UA_REFUSED_ORDER,
 * where the event has no order at the place or sends it to the link side; M2UA_REFUSED_BUFFER. Refused:
 * length 0, `out` unchanged. */
static inline m2ua_written m2ua_order(const m2ua_gateway *g, uint32_t kind, size_t index, const uint8_t *msg, size_t len,
                                      const uint8_t *hold, size_t hold_bytes, size_t place, uint8_t *out, size_t out_bytes) {
    return m2ua_order_at(M2UA_COLUMNS_OF(g), kind, index, msg, len, hold, hold_bytes, place, out, out_bytes);
}

/* What writing several did: 0, how many orders and how many bytes; or the number of the refusal and zeros. */
typedef struct {
    uint32_t code;
    size_t count;
    size_t length;
} m2ua_batch;

m2ua_batch m2ua_orders_at(M2UA_COLUMNS_READ, uint32_t kind, size_t index, const uint8_t *msg, size_t msg_bytes,
                          const uint8_t *hold, size_t hold_bytes, size_t place, uint32_t *lens, size_t len_count, uint8_t *out,
                          size_t out_bytes);

/* Writes the messages of as many orders, from a place on, as go into `out` and have a place in `lens`, one
 * behind the other (Rule 8.16): lens[j] is the length of the j-th, 0 for an order to the link side, which
 * goes in wherever there is a place in `lens`. Each message is the one that m2ua_order writes.
 * Answers: `code` 0, the number of orders and of bytes, what lies behind them in `lens` and `out` unchanged;
 * or, in this order: M2UA_REFUSED_STATE, M2UA_REFUSED_PLACE and M2UA_REFUSED_HOLD as above;
 * M2UA_REFUSED_ORDER, a place beyond the orders; M2UA_REFUSED_BUFFER, not one goes in. Refused: zeros,
 * nothing changed.
 * With M2UA_MAX_MESSAGE bytes and one length or more at least one goes in, so that this writes all:
 *     for (place = 0; place < count; place += b.count) b = m2ua_orders(.., place, ..);
 * Each call runs the event again (docs/HOST.md has the times). */
static inline m2ua_batch m2ua_orders(const m2ua_gateway *g, uint32_t kind, size_t index, const uint8_t *msg, size_t len,
                                     const uint8_t *hold, size_t hold_bytes, size_t place, uint32_t *lens, size_t len_count,
                                     uint8_t *out, size_t out_bytes) {
    return m2ua_orders_at(M2UA_COLUMNS_OF(g), kind, index, msg, len, hold, hold_bytes, place, lens, len_count, out, out_bytes);
}

#undef M2UA_COLUMNS_READ
#undef M2UA_COLUMNS_WRITTEN
#undef M2UA_COLUMNS_OF

/* ---- Layout ---- */

/* The structs as the library was compiled for: size, and where each field starts. tools/check/header-check
 * writes these lines anew (--write). */
M2UA_STATIC_ASSERT(sizeof(m2ua_answer) == 8, "m2ua_answer");
M2UA_STATIC_ASSERT(offsetof(m2ua_answer, code) == 0, "m2ua_answer.code");
M2UA_STATIC_ASSERT(offsetof(m2ua_answer, value) == 4, "m2ua_answer.value");
M2UA_STATIC_ASSERT(sizeof(m2ua_batch) == 24, "m2ua_batch");
M2UA_STATIC_ASSERT(offsetof(m2ua_batch, code) == 0, "m2ua_batch.code");
M2UA_STATIC_ASSERT(offsetof(m2ua_batch, count) == 8, "m2ua_batch.count");
M2UA_STATIC_ASSERT(offsetof(m2ua_batch, length) == 16, "m2ua_batch.length");
M2UA_STATIC_ASSERT(sizeof(m2ua_data_at) == 16, "m2ua_data_at");
M2UA_STATIC_ASSERT(offsetof(m2ua_data_at, start) == 0, "m2ua_data_at.start");
M2UA_STATIC_ASSERT(offsetof(m2ua_data_at, length) == 8, "m2ua_data_at.length");
M2UA_STATIC_ASSERT(sizeof(m2ua_done) == 16, "m2ua_done");
M2UA_STATIC_ASSERT(offsetof(m2ua_done, refusal) == 0, "m2ua_done.refusal");
M2UA_STATIC_ASSERT(offsetof(m2ua_done, count) == 8, "m2ua_done.count");
M2UA_STATIC_ASSERT(sizeof(m2ua_gateway) == 3348, "m2ua_gateway");
M2UA_STATIC_ASSERT(offsetof(m2ua_gateway, asps) == 0, "m2ua_gateway.asps");
M2UA_STATIC_ASSERT(offsetof(m2ua_gateway, ases) == 1, "m2ua_gateway.ases");
M2UA_STATIC_ASSERT(offsetof(m2ua_gateway, links) == 2, "m2ua_gateway.links");
M2UA_STATIC_ASSERT(offsetof(m2ua_gateway, spare) == 3, "m2ua_gateway.spare");
M2UA_STATIC_ASSERT(offsetof(m2ua_gateway, aspid) == 4, "m2ua_gateway.aspid");
M2UA_STATIC_ASSERT(offsetof(m2ua_gateway, up) == 68, "m2ua_gateway.up");
M2UA_STATIC_ASSERT(offsetof(m2ua_gateway, member) == 84, "m2ua_gateway.member");
M2UA_STATIC_ASSERT(offsetof(m2ua_gateway, active) == 340, "m2ua_gateway.active");
M2UA_STATIC_ASSERT(offsetof(m2ua_gateway, mode) == 596, "m2ua_gateway.mode");
M2UA_STATIC_ASSERT(offsetof(m2ua_gateway, waiting) == 612, "m2ua_gateway.waiting");
M2UA_STATIC_ASSERT(offsetof(m2ua_gateway, iid) == 628, "m2ua_gateway.iid");
M2UA_STATIC_ASSERT(offsetof(m2ua_gateway, owner) == 1140, "m2ua_gateway.owner");
M2UA_STATIC_ASSERT(offsetof(m2ua_gateway, state) == 1268, "m2ua_gateway.state");
M2UA_STATIC_ASSERT(offsetof(m2ua_gateway, highspeed) == 1396, "m2ua_gateway.highspeed");
M2UA_STATIC_ASSERT(offsetof(m2ua_gateway, wholelists) == 1524, "m2ua_gateway.wholelists");
M2UA_STATIC_ASSERT(offsetof(m2ua_gateway, held) == 1540, "m2ua_gateway.held");
M2UA_STATIC_ASSERT(sizeof(m2ua_handled) == 24, "m2ua_handled");
M2UA_STATIC_ASSERT(offsetof(m2ua_handled, refusal) == 0, "m2ua_handled.refusal");
M2UA_STATIC_ASSERT(offsetof(m2ua_handled, count) == 8, "m2ua_handled.count");
M2UA_STATIC_ASSERT(offsetof(m2ua_handled, length) == 16, "m2ua_handled.length");
M2UA_STATIC_ASSERT(sizeof(m2ua_loaded) == 3352, "m2ua_loaded");
M2UA_STATIC_ASSERT(offsetof(m2ua_loaded, code) == 0, "m2ua_loaded.code");
M2UA_STATIC_ASSERT(offsetof(m2ua_loaded, gateway) == 4, "m2ua_loaded.gateway");
M2UA_STATIC_ASSERT(sizeof(m2ua_param_at) == 24, "m2ua_param_at");
M2UA_STATIC_ASSERT(offsetof(m2ua_param_at, found) == 0, "m2ua_param_at.found");
M2UA_STATIC_ASSERT(offsetof(m2ua_param_at, start) == 8, "m2ua_param_at.start");
M2UA_STATIC_ASSERT(offsetof(m2ua_param_at, length) == 16, "m2ua_param_at.length");
M2UA_STATIC_ASSERT(sizeof(m2ua_reading) == 56, "m2ua_reading");
M2UA_STATIC_ASSERT(offsetof(m2ua_reading, code) == 0, "m2ua_reading.code");
M2UA_STATIC_ASSERT(offsetof(m2ua_reading, class_) == 4, "m2ua_reading.class_");
M2UA_STATIC_ASSERT(offsetof(m2ua_reading, msgtype) == 8, "m2ua_reading.msgtype");
M2UA_STATIC_ASSERT(offsetof(m2ua_reading, ids) == 12, "m2ua_reading.ids");
M2UA_STATIC_ASSERT(offsetof(m2ua_reading, id) == 16, "m2ua_reading.id");
M2UA_STATIC_ASSERT(offsetof(m2ua_reading, mode) == 20, "m2ua_reading.mode");
M2UA_STATIC_ASSERT(offsetof(m2ua_reading, identified) == 24, "m2ua_reading.identified");
M2UA_STATIC_ASSERT(offsetof(m2ua_reading, aspid) == 28, "m2ua_reading.aspid");
M2UA_STATIC_ASSERT(offsetof(m2ua_reading, correlated) == 32, "m2ua_reading.correlated");
M2UA_STATIC_ASSERT(offsetof(m2ua_reading, correlation) == 36, "m2ua_reading.correlation");
M2UA_STATIC_ASSERT(offsetof(m2ua_reading, state) == 40, "m2ua_reading.state");
M2UA_STATIC_ASSERT(offsetof(m2ua_reading, retrieval) == 44, "m2ua_reading.retrieval");
M2UA_STATIC_ASSERT(offsetof(m2ua_reading, sequenced) == 48, "m2ua_reading.sequenced");
M2UA_STATIC_ASSERT(offsetof(m2ua_reading, sequence) == 52, "m2ua_reading.sequence");
M2UA_STATIC_ASSERT(sizeof(m2ua_units) == 1808, "m2ua_units");
M2UA_STATIC_ASSERT(offsetof(m2ua_units, count) == 0, "m2ua_units.count");
M2UA_STATIC_ASSERT(offsetof(m2ua_units, tag) == 16, "m2ua_units.tag");
M2UA_STATIC_ASSERT(offsetof(m2ua_units, length) == 272, "m2ua_units.length");
M2UA_STATIC_ASSERT(offsetof(m2ua_units, marked) == 528, "m2ua_units.marked");
M2UA_STATIC_ASSERT(offsetof(m2ua_units, id) == 784, "m2ua_units.id");
M2UA_STATIC_ASSERT(offsetof(m2ua_units, correlation) == 1296, "m2ua_units.correlation");
M2UA_STATIC_ASSERT(sizeof(m2ua_timers) == 32, "m2ua_timers");
M2UA_STATIC_ASSERT(offsetof(m2ua_timers, began) == 0, "m2ua_timers.began");
M2UA_STATIC_ASSERT(offsetof(m2ua_timers, ended) == 16, "m2ua_timers.ended");
M2UA_STATIC_ASSERT(sizeof(m2ua_written) == 16, "m2ua_written");
M2UA_STATIC_ASSERT(offsetof(m2ua_written, code) == 0, "m2ua_written.code");
M2UA_STATIC_ASSERT(offsetof(m2ua_written, length) == 8, "m2ua_written.length");

#ifdef __cplusplus
}
#endif
#endif
