// The header in C++: a plan is loaded, an ASP comes up, and what it is sent is printed. Then it asks a plain
// link, and another ASP a high-speed one, for the messages after a sequence number.
#include <array>
#include <cstdint>
#include <cstdio>
#include <memory>
#include <vector>
#include "m2ua.h"
#include "m2ua_text.h"

namespace {

using Bytes = std::vector<std::uint8_t>;

Bytes file_at(const char *path) {
    Bytes bytes(M2UA_MAX_PLAN + 1);
    std::FILE *file = std::fopen(path, "rb");
    bytes.resize(file ? std::fread(bytes.data(), 1, bytes.size(), file) : 0);
    if (file) std::fclose(file);
    bytes.reserve(1); // a pointer that is lent is never null
    return bytes;
}

// What a host keeps from event to event: the state, the hold that goes with it, and the room that it lends.
struct Host {
    m2ua_gateway gateway;
    Bytes hold;
    std::unique_ptr<m2ua_room> room;

    explicit Host(const m2ua_gateway &fresh) : gateway(fresh), hold(M2UA_HOLD_BYTES), room(new m2ua_room) {}

    // A message of an ASP: each order in words, with the bytes of its message (none for the link side) and
    // those of all.
    void receives(std::size_t asp, const Bytes &message) {
        std::array<char, 128> line;
        const m2ua_handled h = m2ua_message(&gateway, asp, message.data(), message.size(), hold.data(), hold.size(), room.get());
        for (std::size_t i = 0; i < h.count; i++) {
            m2ua_order_text(room->words + M2UA_ORDER_WORDS * i, line.data(), line.size());
            std::printf("%s, %u bytes, of %zu\n", line.data(), room->lens[i], h.length);
        }
    }
};

// A Retrieval Request for the messages of a link after a sequence number.
Bytes request(std::uint8_t link, std::uint16_t after) {
    const std::array<std::uint16_t, 3> tags = {M2UA_TAG_INTERFACE_ID, M2UA_TAG_RETRIEVAL_ACTION, M2UA_TAG_SEQUENCE};
    const std::array<std::uint32_t, 3> lens = {4, 4, 4};
    const std::array<std::uint8_t, 12> values = {0, 0, 0, link, 0, 0, 0, M2UA_RETRIEVE_MESSAGES, 0, 0, std::uint8_t(after >> 8), std::uint8_t(after & 255)};
    Bytes out(M2UA_MAX_MESSAGE);
    out.resize(m2ua_write(M2UA_CLASS_MAUP, M2UA_TYPE_RETRIEVAL_REQUEST, tags.data(), 3, lens.data(), 3, values.data(), values.size(), out.data(), out.size()).length);
    const m2ua_reading r = m2ua_read(out.data(), out.size());
    if (r.sequenced) std::printf("asked of link %u: the messages after %u\n", r.id, r.sequence);
    return out;
}

} // namespace

int main(int argc, char **argv) {
    if (argc != 2) {
        std::fprintf(stderr, "usage: host PLAN\n");
        return 2;
    }
    const Bytes plan = file_at(argv[1]);
    const m2ua_loaded loaded = m2ua_load(plan.data(), plan.size());
    if (loaded.code != M2UA_OK || m2ua_is_sound(&loaded.gateway) != 1) {
        std::fprintf(stderr, "%s: %u (%s)\n", argv[1], loaded.code, m2ua_code_text(loaded.code));
        return 1;
    }
    const Bytes up = {1, 0, M2UA_CLASS_ASPSM, M2UA_TYPE_UP, 0, 0, 0, 8}, active = {1, 0, M2UA_CLASS_ASPTM, M2UA_TYPE_ACTIVE, 0, 0, 0, 8};
    Host host(loaded.gateway);
    std::printf("reading: %u\n", m2ua_read(up.data(), up.size()).code);
    host.receives(0, up);
    std::array<std::uint8_t, 32> out = {};
    const std::uint16_t tag = M2UA_TAG_HEARTBEAT;
    const std::uint32_t length = 2;
    const m2ua_written beat = m2ua_write(M2UA_CLASS_ASPSM, M2UA_TYPE_BEAT, &tag, 1, &length, 1, out.data(), 2, out.data() + 16, 16);
    std::printf("heartbeat: %u, %zu bytes; up: %u\n", beat.code, beat.length, unsigned(host.gateway.up[0]));
    host.receives(0, active);
    host.receives(0, request(100, 128));
    host.receives(2, up);
    host.receives(2, active);
    host.receives(2, request(200, 4095));
    return 0;
}
