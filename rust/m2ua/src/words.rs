//! Names of numbers.
use crate::sys;

/// The name of an Error code (RFC 3331, 3.3.3.1).
pub(crate) fn error_name(code: u32) -> &'static str {
    match code {
        sys::ERROR_INVALID_VERSION => "invalid version",
        sys::ERROR_INVALID_INTERFACE_ID => "invalid interface identifier",
        sys::ERROR_UNSUPPORTED_CLASS => "unsupported message class",
        sys::ERROR_UNSUPPORTED_TYPE => "unsupported message type",
        sys::ERROR_UNSUPPORTED_MODE => "unsupported traffic mode",
        sys::ERROR_UNEXPECTED_MESSAGE => "unexpected message",
        sys::ERROR_PROTOCOL => "protocol error",
        sys::ERROR_UNSUPPORTED_ID_TYPE => "unsupported interface identifier type",
        sys::ERROR_INVALID_STREAM => "invalid stream identifier",
        sys::ERROR_MANAGEMENT_BLOCKING => "refused, management blocking",
        sys::ERROR_ASP_ID_REQUIRED => "ASP identifier required",
        sys::ERROR_INVALID_ASP_ID => "invalid ASP identifier",
        sys::ERROR_ASP_ACTIVE_FOR_ID => "ASP active for interface identifier",
        sys::ERROR_INVALID_VALUE => "invalid parameter value",
        sys::ERROR_PARAMETER_FIELD => "parameter field error",
        sys::ERROR_UNEXPECTED_PARAMETER => "unexpected parameter",
        sys::ERROR_MISSING_PARAMETER => "missing parameter",
        _ => "unknown number",
    }
}

/// The name of a tag (Rules 2.10, 2.16).
pub(crate) fn tag_name(tag: u16) -> &'static str {
    match tag {
        sys::TAG_INTERFACE_ID => "interface identifiers",
        sys::TAG_TEXT_ID => "interface identifier as text",
        sys::TAG_INFO => "info string",
        sys::TAG_DIAGNOSTIC => "diagnostic information",
        sys::TAG_INTERFACE_ID_RANGE => "interface identifier ranges",
        sys::TAG_HEARTBEAT => "heartbeat data",
        sys::TAG_TRAFFIC_MODE => "traffic mode",
        sys::TAG_ERROR_CODE => "error code",
        sys::TAG_STATUS => "status",
        sys::TAG_ASP_ID => "ASP identifier",
        sys::TAG_CORRELATION_ID => "correlation id",
        sys::TAG_DATA_1 => "protocol data 1",
        sys::TAG_DATA_2 => "protocol data 2",
        sys::TAG_STATE => "state",
        sys::TAG_STATE_EVENT => "event",
        sys::TAG_CONGESTION => "congestion status",
        sys::TAG_DISCARD => "discard status",
        sys::TAG_RETRIEVAL_ACTION => "retrieval action",
        sys::TAG_SEQUENCE => "sequence number",
        sys::TAG_RETRIEVAL_RESULT => "retrieval result",
        _ => "unknown tag",
    }
}
