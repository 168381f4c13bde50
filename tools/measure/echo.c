/* The bare echo that tools/measure/daemon-times measures the daemon against: it takes a message and sends it
 * back, and does nothing else.
 *     echo unix PATH           a Unix socket of type SOCK_SEQPACKET
 *     echo sctp UDP-PORT       SCTP by libusrsctp inside UDP, port 2904 of 127.0.0.1 (compiled with
 *                              -DSCTP) */
#include <stdio.h>
#include <stdlib.h>
#include <string.h>
#include <sys/socket.h>
#include <sys/un.h>
#include <unistd.h>

static int over_unix(const char *path) {
    struct sockaddr_un at = {.sun_family = AF_UNIX};
    static unsigned char message[4096];
    ssize_t n;
    int listener = socket(AF_UNIX, SOCK_SEQPACKET, 0), s;
    strncpy(at.sun_path, path, sizeof at.sun_path - 1);
    unlink(path);
    if (bind(listener, (struct sockaddr *)&at, sizeof at) || listen(listener, 4)) return perror(path), 1;
    while ((s = accept(listener, NULL, NULL)) >= 0) {
        while ((n = recv(s, message, sizeof message, 0)) > 0)
            if (send(s, message, (size_t)n, MSG_NOSIGNAL) != n) break;
        close(s);
    }
    return 0;
}

#ifdef SCTP
#include <arpa/inet.h>
#include <usrsctp.h>

static int over_sctp(int udp) {
    struct sockaddr_in at = {.sin_family = AF_INET, .sin_port = htons(2904), .sin_addr.s_addr = htonl(INADDR_LOOPBACK)};
    struct sctp_sndinfo out = {.snd_ppid = htonl(2)};
    static unsigned char message[4096];
    struct socket *listener, *s;
    int on = 1, buffer = 1 << 18;
    usrsctp_init((uint16_t)udp, NULL, NULL);
    listener = usrsctp_socket(AF_INET, SOCK_STREAM, IPPROTO_SCTP, NULL, NULL, 0, NULL);
    usrsctp_setsockopt(listener, IPPROTO_SCTP, SCTP_NODELAY, &on, sizeof on);
    usrsctp_setsockopt(listener, SOL_SOCKET, SO_SNDBUF, &buffer, sizeof buffer);
    usrsctp_setsockopt(listener, SOL_SOCKET, SO_RCVBUF, &buffer, sizeof buffer);
    if (usrsctp_bind(listener, (struct sockaddr *)&at, sizeof at) || usrsctp_listen(listener, 4)) return perror("sctp"), 1;
    while ((s = usrsctp_accept(listener, NULL, NULL)) != NULL) {
        for (;;) {
            struct sctp_rcvinfo in;
            socklen_t length = sizeof in, none = 0;
            unsigned kind;
            int flags = 0;
            ssize_t n = usrsctp_recvv(s, message, sizeof message, NULL, &none, &in, &length, &kind, &flags);
            if (n <= 0 || usrsctp_sendv(s, message, (size_t)n, NULL, 0, &out, sizeof out, SCTP_SENDV_SNDINFO, 0) < 0) break;
        }
        usrsctp_close(s);
    }
    return 0;
}
#endif

int main(int argc, char **argv) {
    if (argc == 3 && !strcmp(argv[1], "unix")) return over_unix(argv[2]);
#ifdef SCTP
    if (argc == 3 && !strcmp(argv[1], "sctp")) return over_sctp(atoi(argv[2]));
#endif
    fprintf(stderr, "usage: echo unix PATH | echo sctp UDP-PORT\n");
    return 2;
}
