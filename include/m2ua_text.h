/* Orders, messages and refusals in words, for logs and traces. Plain C over m2ua.h, and no part of the
 * library; the words are those of the Rust crate, with which tools/try/hosts compares them. */
#ifndef M2UA_TEXT_H
#define M2UA_TEXT_H
#include <stdio.h>
#include "m2ua.h"

/* The name of a message by its class * 256 + type (as in an order's second word); null where there is
 * none. */
static inline const char *m2ua_message_name(uint32_t word) {
    switch (word) {
    case 0 * 256 + M2UA_TYPE_ERROR: return "Error";
    case 0 * 256 + M2UA_TYPE_NOTIFY: return "Notify";
    case 3 * 256 + M2UA_TYPE_UP: return "ASP Up";
    case 3 * 256 + M2UA_TYPE_DOWN: return "ASP Down";
    case 3 * 256 + M2UA_TYPE_BEAT: return "Heartbeat";
    case 3 * 256 + M2UA_TYPE_UP_ACK: return "ASP Up Ack";
    case 3 * 256 + M2UA_TYPE_DOWN_ACK: return "ASP Down Ack";
    case 3 * 256 + M2UA_TYPE_BEAT_ACK: return "Heartbeat Ack";
    case 4 * 256 + M2UA_TYPE_ACTIVE: return "ASP Active";
    case 4 * 256 + M2UA_TYPE_INACTIVE: return "ASP Inactive";
    case 4 * 256 + M2UA_TYPE_ACTIVE_ACK: return "ASP Active Ack";
    case 4 * 256 + M2UA_TYPE_INACTIVE_ACK: return "ASP Inactive Ack";
    case M2UA_ORDER_DATA: return "Data";
    case M2UA_ORDER_ESTABLISH_REQUEST: return "Establish Request";
    case M2UA_ORDER_ESTABLISH_CONFIRM: return "Establish Confirm";
    case M2UA_ORDER_RELEASE_REQUEST: return "Release Request";
    case M2UA_ORDER_RELEASE_CONFIRM: return "Release Confirm";
    case M2UA_ORDER_RELEASE_INDICATION: return "Release Indication";
    case M2UA_ORDER_STATE_REQUEST: return "State Request";
    case M2UA_ORDER_STATE_CONFIRM: return "State Confirm";
    case M2UA_ORDER_STATE_INDICATION: return "State Indication";
    case M2UA_ORDER_RETRIEVAL_REQUEST: return "Data Retrieval Request";
    case M2UA_ORDER_RETRIEVAL_CONFIRM: return "Data Retrieval Confirm";
    case M2UA_ORDER_RETRIEVAL_INDICATION: return "Data Retrieval Indication";
    case M2UA_ORDER_RETRIEVAL_COMPLETE: return "Data Retrieval Complete Indication";
    case M2UA_ORDER_CONGESTION_INDICATION: return "Congestion Indication";
    case M2UA_ORDER_DATA_ACK: return "Data Acknowledge";
    default: return NULL;
    }
}

/* The meaning of the number of a refusal, or of an Error code. */
static inline const char *m2ua_code_text(uint32_t code) {
    switch (code) {
    case M2UA_REFUSED_LIST: return "the lent list of words is too short";
    case M2UA_REFUSED_PLACE: return "no such ASP, AS or link in the plan, or a message of the link side that does not fit";
    case M2UA_REFUSED_BUFFER: return "the lent buffer is too short";
    case M2UA_REFUSED_ORDER: return "the event has no such order, or it goes to the link side";
    case M2UA_REFUSED_STATE: return "the state is not sound";
    case M2UA_REFUSED_HOLD: return "the lent hold has another length";
    case M2UA_REFUSED_LAYOUT: return "plan file: a count, an offset or the length is wrong";
    case M2UA_REFUSED_ROW: return "plan file: a row is wrong";
    case M2UA_ERROR_INVALID_VERSION: return "invalid version";
    case M2UA_ERROR_INVALID_INTERFACE_ID: return "invalid interface identifier";
    case M2UA_ERROR_UNSUPPORTED_CLASS: return "unsupported message class";
    case M2UA_ERROR_UNSUPPORTED_TYPE: return "unsupported message type";
    case M2UA_ERROR_UNSUPPORTED_MODE: return "unsupported traffic mode";
    case M2UA_ERROR_UNEXPECTED_MESSAGE: return "unexpected message";
    case M2UA_ERROR_PROTOCOL: return "protocol error";
    case M2UA_ERROR_UNSUPPORTED_ID_TYPE: return "unsupported interface identifier type";
    case M2UA_ERROR_INVALID_STREAM: return "invalid stream identifier";
    case M2UA_ERROR_MANAGEMENT_BLOCKING: return "refused, management blocking";
    case M2UA_ERROR_ASP_ID_REQUIRED: return "ASP identifier required";
    case M2UA_ERROR_INVALID_ASP_ID: return "invalid ASP identifier";
    case M2UA_ERROR_ASP_ACTIVE_FOR_ID: return "ASP active for interface identifier";
    case M2UA_ERROR_INVALID_VALUE: return "invalid parameter value";
    case M2UA_ERROR_PARAMETER_FIELD: return "parameter field error";
    case M2UA_ERROR_UNEXPECTED_PARAMETER: return "unexpected parameter";
    case M2UA_ERROR_MISSING_PARAMETER: return "missing parameter";
    default: return "unknown number";
    }
}

/* What a Notify order tells; null for another number. */
static inline const char *m2ua_status_text(uint32_t value) {
    switch (value) {
    case M2UA_STATUS_AS_INACTIVE: return "inactive";
    case M2UA_STATUS_AS_ACTIVE: return "active";
    case M2UA_STATUS_AS_PENDING: return "pending";
    case M2UA_STATUS_OTHER_ACTIVE: return "taken over by another ASP";
    default: return NULL;
    }
}

/* An order of four words as one line, as snprintf writes it. 128 bytes are enough. */
static inline int m2ua_order_text(const uint32_t *order, char *out, size_t out_bytes) {
    char to[24];
    const char *name = m2ua_message_name(order[1]), *status = m2ua_status_text(order[3]);
    unsigned subject = order[2], value = order[3];
    if (order[0] == M2UA_LINK_SIDE) snprintf(to, sizeof to, "the link side");
    else snprintf(to, sizeof to, "ASP %u", (unsigned)order[0]);
    switch (order[1]) {
    case M2UA_ORDER_ERROR:
        if (value == M2UA_ERROR_INVALID_INTERFACE_ID) return snprintf(out, out_bytes, "to %s: %s %u (%s %u)", to, name, value, m2ua_code_text(value), subject);
        return snprintf(out, out_bytes, "to %s: %s %u (%s)", to, name, value, m2ua_code_text(value));
    case M2UA_ORDER_NOTIFY:
        if (status) return snprintf(out, out_bytes, "to %s: %s, AS %u %s", to, name, subject, status);
        return snprintf(out, out_bytes, "to %s: %s, AS %u status %u", to, name, subject, value);
    case M2UA_ORDER_STATE_REQUEST: return snprintf(out, out_bytes, "to %s: %s of link %u, state %u", to, name, subject, value);
    case M2UA_ORDER_RETRIEVAL_REQUEST: return snprintf(out, out_bytes, "to %s: %s of link %u, action %u", to, name, subject, value);
    case M2UA_ORDER_DATA_ACK: return snprintf(out, out_bytes, "to %s: %s of link %u, correlation id %u", to, name, subject, value);
    default:
        if (order[1] / 256 == M2UA_CLASS_MAUP) return snprintf(out, out_bytes, "to %s: %s of link %u", to, name ? name : "?", subject);
        return snprintf(out, out_bytes, "to %s: %s", to, name ? name : "?");
    }
}

#endif
