/* SCTP in user space by libusrsctp (Debian: libusrsctp-dev), behind the few functions that sctp.rs
 * declares. The stack has threads of its own; none of them comes here but to raise the counter `wake`,
 * which the program's own loop watches. */
#define _GNU_SOURCE
#include <usrsctp.h>
#include <arpa/inet.h>
#include <errno.h>
#include <fcntl.h>
#include <linux/filter.h>
#include <stdint.h>
#include <netinet/in.h>
#include <string.h>
#include <sys/socket.h>
#include <sys/time.h>
#include <unistd.h>

/* An address as sctp.rs has it: family 4 or 6, its bytes, and the port. */
struct address {
    uint8_t family;
    uint8_t bytes[16];
    uint16_t port;
};

/* How an association is kept (terms.rs): the peer's port inside UDP (0: over IP), the streams it may
 * have, the missed answers that an association survives, milliseconds of its timers, bytes of each
 * buffer. */
struct terms {
    uint16_t udp_port;
    uint16_t streams;
    uint16_t misses;
    uint32_t rto;
    uint32_t rto_least;
    uint32_t heartbeat;
    uint32_t buffer;
};

enum { NOTHING, PIECE, END, ENDED, RESTARTED, OTHER };

/* Stream 0 is that of management, 1 that of traffic. */
static const uint16_t streams = 2;
static const uint32_t m2ua = 2;

static socklen_t filled(struct sockaddr_storage *to, const struct address *from) {
    memset(to, 0, sizeof *to);
    if (from->family == 4) {
        struct sockaddr_in *in = (struct sockaddr_in *)to;
        in->sin_family = AF_INET;
        in->sin_port = htons(from->port);
        memcpy(&in->sin_addr, from->bytes, 4);
        return sizeof *in;
    }
    struct sockaddr_in6 *in = (struct sockaddr_in6 *)to;
    in->sin6_family = AF_INET6;
    in->sin6_port = htons(from->port);
    memcpy(&in->sin6_addr, from->bytes, 16);
    return sizeof *in;
}

static void told(struct address *to, const struct sockaddr_storage *from) {
    memset(to, 0, sizeof *to);
    if (from->ss_family == AF_INET) {
        const struct sockaddr_in *in = (const struct sockaddr_in *)from;
        to->family = 4;
        to->port = ntohs(in->sin_port);
        memcpy(to->bytes, &in->sin_addr, 4);
    } else {
        const struct sockaddr_in6 *in = (const struct sockaddr_in6 *)from;
        to->family = 6;
        to->port = ntohs(in->sin6_port);
        memcpy(to->bytes, &in->sin6_addr, 16);
    }
}

static void wakes(struct socket *s, void *arg, int flags) {
    uint64_t one = 1;
    (void)s;
    (void)flags;
    /* a counter that is full has been raised already */
    if (write((int)(intptr_t)arg, &one, sizeof one) < 0) return;
}

/* Whether SCTP may be sent over IP: 0, or why not. */
int m2ua_sctp_raw(void) {
    int s = socket(AF_INET, SOCK_RAW, IPPROTO_SCTP);
    if (s < 0) return errno;
    close(s);
    return 0;
}

static int option(int fd, int name) {
    int value = -1;
    socklen_t length = sizeof value;
    return getsockopt(fd, SOL_SOCKET, name, &value, &length) ? -1 : value;
}

/* The stack's own socket of a kind, which it does not hand out: of UDP the one with that port. -1 where
 * there is none. */
static int own(int family, int type, int protocol, uint16_t port) {
    for (int fd = 3; fd < 1024; fd++) {
        struct sockaddr_storage at = {0};
        socklen_t length = sizeof at;
        struct address bound;
        if (option(fd, SO_DOMAIN) != family || option(fd, SO_TYPE) != type) continue;
        if (option(fd, SO_PROTOCOL) != protocol) continue;
        if (getsockname(fd, (struct sockaddr *)&at, &length)) continue;
        told(&bound, &at);
        if (type == SOCK_RAW || bound.port == port) return fd;
    }
    return -1;
}

/* Whether an address stands for all of this machine's. */
static int any(const struct address *at) {
    static const uint8_t zero[16];
    return memcmp(at->bytes, zero, sizeof zero) == 0;
}

/* A filter of a raw socket under way. */
struct filter {
    struct sock_filter code[16];
    uint16_t count;
};

static void step(struct filter *f, uint16_t code, uint32_t k, uint8_t yes, uint8_t no) {
    f->code[f->count++] = (struct sock_filter){code, yes, no, k};
}

/* Goes on where what was loaded is k, else passes the packet over. */
static void must(struct filter *f, uint32_t k) {
    step(f, BPF_JMP | BPF_JEQ | BPF_K, k, 1, 0);
    step(f, BPF_RET | BPF_K, 0, 0, 0);
}

static uint32_t word(const uint8_t *bytes) {
    return (uint32_t)bytes[0] << 24 | (uint32_t)bytes[1] << 16 | (uint32_t)bytes[2] << 8 | bytes[3];
}

/* Lets a raw socket have what is for an address and its port alone; with NULL nothing at all. The kernel
 * shows a filter the IPv4 header too, and of IPv6 what follows it. */
static void admit(int family, const struct address *at) {
    struct filter f = {.count = 0};
    int fd = own(family, SOCK_RAW, IPPROTO_SCTP, 0), bytes = family == AF_INET ? 4 : 16;
    uint32_t destination = (uint32_t)SKF_NET_OFF + (family == AF_INET ? 16 : 24);
    if (fd < 0) return;
    if (at != NULL) {
        if (family == AF_INET) {
            step(&f, BPF_LDX | BPF_B | BPF_MSH, 0, 0, 0);
            step(&f, BPF_LD | BPF_H | BPF_IND, 2, 0, 0);
        } else {
            step(&f, BPF_LD | BPF_H | BPF_ABS, 2, 0, 0);
        }
        must(&f, at->port);
        for (int k = 0; k < bytes && !any(at); k += 4) {
            step(&f, BPF_LD | BPF_W | BPF_ABS, destination + (uint32_t)k, 0, 0);
            must(&f, word(at->bytes + k));
        }
    }
    step(&f, BPF_RET | BPF_K, at != NULL ? UINT32_MAX : 0, 0, 0);
    struct sock_fprog program = {f.count, f.code};
    setsockopt(fd, SOL_SOCKET, SO_ATTACH_FILTER, &program, sizeof program);
}

/* Over IP each such stack of this machine sees all packets. Ours gets those for its own address and port,
 * and answers what belongs to no association of it by an ABORT, so that the peers of a process that is no
 * more are told. Without a port of its own it passes such packets over in silence. */
static void over_ip(const struct address *at) {
    if (at->port == 0) {
        usrsctp_sysctl_set_sctp_blackhole(2);
        return;
    }
    admit(AF_INET, at->family == 4 || any(at) ? at : NULL);
    admit(AF_INET6, at->family == 6 ? at : NULL);
}

/* A socket of UDP like the stack's own: it tells where a packet went to, and does not wait for ever. */
static int udp_socket(int family) {
    static const struct timeval most = {.tv_usec = 100000};
    int on = 1, room = 1 << 17, fd = socket(family, SOCK_DGRAM | SOCK_CLOEXEC, IPPROTO_UDP);
    if (fd < 0) return -1;
    if (family == AF_INET) {
        setsockopt(fd, IPPROTO_IP, IP_PKTINFO, &on, sizeof on);
    } else {
        setsockopt(fd, IPPROTO_IPV6, IPV6_RECVPKTINFO, &on, sizeof on);
        setsockopt(fd, IPPROTO_IPV6, IPV6_V6ONLY, &on, sizeof on);
    }
    setsockopt(fd, SOL_SOCKET, SO_RCVTIMEO, &most, sizeof most);
    setsockopt(fd, SOL_SOCKET, SO_RCVBUF, &room, sizeof room);
    setsockopt(fd, SOL_SOCKET, SO_SNDBUF, &room, sizeof room);
    return fd;
}

/* A port of UDP that nobody has. */
static uint16_t free_port(void) {
    struct sockaddr_storage a;
    struct address bound = {0}, none = {.family = 4};
    socklen_t length = filled(&a, &none);
    int fd = socket(AF_INET, SOCK_DGRAM | SOCK_CLOEXEC, 0);
    if (fd < 0) return 0;
    if (!bind(fd, (struct sockaddr *)&a, length) && !getsockname(fd, (struct sockaddr *)&a, &length)) told(&bound, &a);
    close(fd);
    return bound.port;
}

/* Puts sockets in the place of those that the stack has made for UDP with a port: for the family of the
 * address one that is bound to it, for the other one that nothing comes to. The stack asks for a
 * descriptor anew at each packet. */
static void take_place(uint16_t port, int family, int bound) {
    int other = family == AF_INET ? AF_INET6 : AF_INET;
    int its = own(family, SOCK_DGRAM, IPPROTO_UDP, port), unused = own(other, SOCK_DGRAM, IPPROTO_UDP, port);
    int silent = udp_socket(other);
    if (its >= 0) dup3(bound, its, O_CLOEXEC);
    if (unused >= 0 && silent >= 0) dup3(silent, unused, O_CLOEXEC);
    if (silent >= 0) close(silent);
}

/* Inside UDP the stack would send from whatever address the kernel takes, and a peer waits for an answer
 * of the one that it wrote to: so its socket is replaced by one that is bound there. 0, or why that
 * cannot be. */
static int inside_udp(const struct address *at, uint16_t udp_port) {
    struct sockaddr_storage a;
    struct address here = *at;
    here.port = udp_port;
    socklen_t length = filled(&a, &here);
    uint16_t port = free_port();
    int fd = udp_socket(a.ss_family);
    if (fd < 0 || bind(fd, (struct sockaddr *)&a, length)) {
        int why = errno;
        if (fd >= 0) close(fd);
        return why;
    }
    usrsctp_init(port, NULL, NULL);
    take_place(port, a.ss_family, fd);
    close(fd);
    return 0;
}

/* Starts the stack, once in a process, for an address of this side: inside UDP with that port, or over IP
 * with 0. Answers 0, or why it cannot be. */
int m2ua_sctp_start(const struct address *at, uint16_t udp_port) {
    int why = 0;
    if (udp_port && !any(at)) why = inside_udp(at, udp_port);
    else usrsctp_init(udp_port, NULL, NULL);
    if (why) return why;
    if (udp_port == 0) {
        over_ip(at);
    } else {
        /* what goes over IP is not ours */
        admit(AF_INET, NULL);
        admit(AF_INET6, NULL);
    }
    return 0;
}

static int keep(struct socket *s, const struct terms *t) {
    struct sctp_rtoinfo rto = {.srto_initial = t->rto, .srto_max = t->rto, .srto_min = t->rto_least};
    struct sctp_assocparams association = {.sasoc_asocmaxrxt = t->misses};
    struct sctp_paddrparams path = {
        .spp_hbinterval = t->heartbeat, .spp_pathmaxrxt = t->misses, .spp_flags = SPP_HB_ENABLE};
    struct sctp_initmsg init = {.sinit_num_ostreams = streams,
                                .sinit_max_instreams = t->streams,
                                .sinit_max_attempts = t->misses,
                                .sinit_max_init_timeo = (uint16_t)(t->rto < 60000 ? t->rto : 60000)};
    int buffer = (int)t->buffer, on = 1;
    path.spp_address.ss_family = AF_INET;
    return usrsctp_setsockopt(s, IPPROTO_SCTP, SCTP_RTOINFO, &rto, sizeof rto) ||
           usrsctp_setsockopt(s, IPPROTO_SCTP, SCTP_ASSOCINFO, &association, sizeof association) ||
           usrsctp_setsockopt(s, IPPROTO_SCTP, SCTP_PEER_ADDR_PARAMS, &path, sizeof path) ||
           usrsctp_setsockopt(s, IPPROTO_SCTP, SCTP_INITMSG, &init, sizeof init) ||
           usrsctp_setsockopt(s, IPPROTO_SCTP, SCTP_RECVRCVINFO, &on, sizeof on) ||
           usrsctp_setsockopt(s, IPPROTO_SCTP, SCTP_NODELAY, &on, sizeof on) ||
           usrsctp_setsockopt(s, SOL_SOCKET, SO_SNDBUF, &buffer, sizeof buffer) ||
           usrsctp_setsockopt(s, SOL_SOCKET, SO_RCVBUF, &buffer, sizeof buffer);
}

static struct socket *opened(const struct address *at, const struct terms *t) {
    struct socket *s = usrsctp_socket(at->family == 4 ? AF_INET : AF_INET6, SOCK_STREAM, IPPROTO_SCTP, NULL, NULL, 0, NULL);
    struct sctp_event changes = {.se_assoc_id = SCTP_FUTURE_ASSOC, .se_type = SCTP_ASSOC_CHANGE, .se_on = 1};
    struct sctp_udpencaps udp = {.sue_port = htons(t->udp_port)};
    if (s == NULL) return NULL;
    udp.sue_address.ss_family = at->family == 4 ? AF_INET : AF_INET6;
    if (keep(s, t) || usrsctp_setsockopt(s, IPPROTO_SCTP, SCTP_EVENT, &changes, sizeof changes) ||
        (t->udp_port && usrsctp_setsockopt(s, IPPROTO_SCTP, SCTP_REMOTE_UDP_ENCAPS_PORT, &udp, sizeof udp))) {
        usrsctp_close(s);
        return NULL;
    }
    return s;
}

/* A listening socket that wakes the loop; NULL, and errno says why. */
struct socket *m2ua_sctp_listen(const struct address *at, const struct terms *t, int wake) {
    struct sockaddr_storage a;
    socklen_t length = filled(&a, at);
    struct socket *s = opened(at, t);
    if (s == NULL) return NULL;
    if (usrsctp_bind(s, (struct sockaddr *)&a, length) || usrsctp_listen(s, 16) || usrsctp_set_non_blocking(s, 1) ||
        usrsctp_set_upcall(s, wakes, (void *)(intptr_t)wake)) {
        int why = errno;
        usrsctp_close(s);
        errno = why;
        return NULL;
    }
    return s;
}

/* The next association of a listening socket and its peer's address; NULL where there is none. */
struct socket *m2ua_sctp_accept(struct socket *listener, struct address *peer, int wake) {
    struct sockaddr_storage a;
    socklen_t length = sizeof a;
    struct socket *s = usrsctp_accept(listener, (struct sockaddr *)&a, &length);
    if (s == NULL) return NULL;
    told(peer, &a);
    usrsctp_set_non_blocking(s, 1);
    usrsctp_set_upcall(s, wakes, (void *)(intptr_t)wake);
    return s;
}

/* An association with a peer, from a port of this side (0: any). It waits until it is there; NULL, and
 * errno says why not. */
struct socket *m2ua_sctp_connect(const struct address *from, const struct address *to, const struct terms *t, int wake) {
    struct sockaddr_storage a;
    socklen_t length;
    struct socket *s = opened(to, t);
    if (s == NULL) return NULL;
    length = filled(&a, from);
    if (from->port && usrsctp_bind(s, (struct sockaddr *)&a, length)) goto failed;
    length = filled(&a, to);
    if (usrsctp_connect(s, (struct sockaddr *)&a, length)) goto failed;
    usrsctp_set_non_blocking(s, 1);
    usrsctp_set_upcall(s, wakes, (void *)(intptr_t)wake);
    return s;
failed: {
    int why = errno;
    usrsctp_close(s);
    errno = why;
    return NULL;
}
}

/* How many streams the peer takes. */
uint16_t m2ua_sctp_streams(struct socket *s) {
    struct sctp_status status = {0};
    socklen_t length = sizeof status;
    return usrsctp_getsockopt(s, IPPROTO_SCTP, SCTP_STATUS, &status, &length) ? 0 : status.sstat_outstrms;
}

static int notified(const void *bytes, size_t length) {
    const struct sctp_assoc_change *c = bytes;
    if (length < sizeof *c || c->sac_type != SCTP_ASSOC_CHANGE) return OTHER;
    switch (c->sac_state) {
    case SCTP_COMM_LOST:
    case SCTP_SHUTDOWN_COMP:
    case SCTP_CANT_STR_ASSOC: return ENDED;
    case SCTP_RESTART: return RESTARTED;
    default: return OTHER;
    }
}

/* What comes next of an association: a piece of a message, or its end, with the identifier of its
 * protocol. */
int m2ua_sctp_receive(struct socket *s, void *bytes, size_t size, size_t *length, uint32_t *ppid) {
    struct sockaddr_storage from;
    socklen_t from_length = sizeof from, info_length;
    struct sctp_rcvinfo info = {0};
    unsigned kind = 0;
    int flags = 0;
    info_length = sizeof info;
    ssize_t n = usrsctp_recvv(s, bytes, size, (struct sockaddr *)&from, &from_length, &info, &info_length, &kind, &flags);
    *length = 0;
    if (n < 0) return errno == EWOULDBLOCK || errno == EAGAIN || errno == EINTR ? NOTHING : ENDED;
    if (n == 0) return ENDED;
    if (flags & MSG_NOTIFICATION) return notified(bytes, (size_t)n);
    *length = (size_t)n;
    *ppid = kind == SCTP_RECVV_RCVINFO ? ntohl(info.rcv_ppid) : 0;
    return flags & MSG_EOR ? END : PIECE;
}

/* Sends a message whole on a stream: 1; 0 where there is no room yet; -1 where the association is over. */
int m2ua_sctp_send(struct socket *s, const void *bytes, size_t length, uint16_t stream, uint32_t ppid) {
    struct sctp_sndinfo info = {.snd_sid = stream, .snd_ppid = htonl(ppid ? ppid : m2ua)};
    ssize_t n = usrsctp_sendv(s, bytes, length, NULL, 0, &info, sizeof info, SCTP_SENDV_SNDINFO, 0);
    if (n >= 0) return 1;
    return errno == EWOULDBLOCK || errno == EAGAIN || errno == ENOBUFS ? 0 : -1;
}

/* Ends an association: what is sent goes out first, or, with abort, nothing more. */
void m2ua_sctp_close(struct socket *s, int abort) {
    struct linger now = {.l_onoff = 1, .l_linger = 0};
    usrsctp_set_upcall(s, NULL, NULL);
    if (abort) usrsctp_setsockopt(s, SOL_SOCKET, SO_LINGER, &now, sizeof now);
    usrsctp_close(s);
}

/* Ends the stack, waiting for associations that still close, at most so many milliseconds: 0 where all of
 * them have. */
int m2ua_sctp_stop(uint32_t most) {
    for (uint32_t waited = 0; usrsctp_finish() != 0; waited += 10) {
        if (waited >= most) return -1;
        usleep(10000);
    }
    return 0;
}
