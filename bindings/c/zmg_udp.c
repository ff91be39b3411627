/* zmg_udp.c: see zmg_udp.h. The calls of Windows were not run. */
#ifdef _WIN32
#define _CRT_RAND_S
#include <winsock2.h>
#include <ws2tcpip.h>
typedef int length_type;
#define NOBODY_THERE (WSAGetLastError() == WSAECONNRESET)
#define poll WSAPoll
#define close_socket(s) closesocket((SOCKET)(s))
#else
#define _POSIX_C_SOURCE 200809L
#include <arpa/inet.h>
#include <errno.h>
#include <fcntl.h>
#include <netdb.h>
#include <netinet/in.h>
#include <poll.h>
#include <sys/socket.h>
#include <time.h>
#include <unistd.h>
typedef socklen_t length_type;
#define NOBODY_THERE (errno == ECONNREFUSED || errno == EHOSTUNREACH || errno == ENETUNREACH || errno == EINTR)
#define close_socket(s) close((int)(s))
#endif
#include "zmg_udp.h"
#include <stdio.h>
#include <stdlib.h>

/* ::ffff:a.b.c.d is the address a.b.c.d of IPv4. */
static const uint8_t mapped[12] = { 0, 0, 0, 0, 0, 0, 0, 0, 0, 0, 0xff, 0xff };

static void pack(const struct sockaddr_storage *at, zmg_address *a) {
    memset(a, 0, sizeof *a);
    if (at->ss_family == AF_INET6) {
        const struct sockaddr_in6 *six = (const struct sockaddr_in6 *)at;
        memcpy(a->bytes, &six->sin6_addr, 16);
        memcpy(a->bytes + 16, &six->sin6_port, 2);
        return;
    }
    const struct sockaddr_in *four = (const struct sockaddr_in *)at;
    memcpy(a->bytes, mapped, sizeof mapped);
    memcpy(a->bytes + 12, &four->sin_addr, 4);
    memcpy(a->bytes + 16, &four->sin_port, 2);
}

static length_type unpack(const zmg_address *a, int family, struct sockaddr_storage *at) {
    memset(at, 0, sizeof *at);
    if (family == AF_INET6) {
        struct sockaddr_in6 *six = (struct sockaddr_in6 *)at;
        six->sin6_family = AF_INET6;
        memcpy(&six->sin6_addr, a->bytes, 16);
        memcpy(&six->sin6_port, a->bytes + 16, 2);
        return sizeof *six;
    }
    struct sockaddr_in *four = (struct sockaddr_in *)at;
    four->sin_family = AF_INET;
    memcpy(&four->sin_addr, a->bytes + 12, 4);
    memcpy(&four->sin_port, a->bytes + 16, 2);
    return sizeof *four;
}

/* Milliseconds of a clock that only goes on. */
static uint64_t clock_now(void) {
#ifdef _WIN32
    return GetTickCount64();
#else
    struct timespec t;
    clock_gettime(CLOCK_MONOTONIC, &t);
    return (uint64_t)t.tv_sec * 1000 + (uint64_t)t.tv_nsec / 1000000;
#endif
}

static bool does_not_wait(intptr_t s) {
#ifdef _WIN32
    u_long yes = 1;
    return ioctlsocket((SOCKET)s, FIONBIO, &yes) == 0;
#else
    return fcntl((int)s, F_SETFL, O_NONBLOCK) == 0;
#endif
}

static bool open_as(zmg_udp *udp, int family, uint16_t port) {
    zmg_address any = { { 0 } };
    struct sockaddr_storage at;
    int no = 0;
    any.bytes[16] = (uint8_t)(port >> 8);
    any.bytes[17] = (uint8_t)port;
    length_type size = unpack(&any, family, &at);
    udp->family = family;
    udp->socket = (intptr_t)socket(family, SOCK_DGRAM, 0);
    if (udp->socket < 0) return false;
    if (family == AF_INET6)
        setsockopt((int)udp->socket, IPPROTO_IPV6, IPV6_V6ONLY, (const char *)&no, sizeof no);
    if (bind((int)udp->socket, (struct sockaddr *)&at, size) == 0 && does_not_wait(udp->socket)) return true;
    zmg_udp_close(udp);
    return false;
}

bool zmg_udp_open(zmg_udp *udp, uint16_t port) {
#ifdef _WIN32
    WSADATA data;
    if (WSAStartup(MAKEWORD(2, 2), &data) != 0) return false;
#endif
    udp->began = clock_now();
    return open_as(udp, AF_INET6, port) || open_as(udp, AF_INET, port);
}

void zmg_udp_close(zmg_udp *udp) {
    if (udp->socket >= 0) close_socket(udp->socket);
    udp->socket = -1;
}

/* Copies text from one place up to another, if it fits. */
static bool cut(const char *from, const char *to, char *room, size_t size) {
    size_t length = (size_t)(to - from);
    if (length >= size) return false;
    memcpy(room, from, length);
    room[length] = 0;
    return true;
}

bool zmg_udp_find(const zmg_udp *udp, const char *text, uint16_t port, zmg_address *found) {
    char name[256], service[8];
    const char *end = text + strlen(text), *close = strchr(text, ']'), *colon = strrchr(text, ':');
    struct addrinfo hints, *list;
    struct sockaddr_storage at;
    bool bare = *text == '[' && close, one = colon && strchr(text, ':') == colon;
    if (bare) colon = close[1] == ':' ? close + 1 : NULL;
    else if (!one) colon = NULL;
    snprintf(service, sizeof service, "%u", port);
    if (colon && !cut(colon + 1, end, service, sizeof service)) return false;
    if (!cut(text + bare, bare ? close : colon ? colon : end, name, sizeof name)) return false;
    memset(&hints, 0, sizeof hints);
    hints.ai_family = udp->family == AF_INET ? AF_INET : AF_UNSPEC;
    hints.ai_socktype = SOCK_DGRAM;
    if (getaddrinfo(name, service, &hints, &list) != 0) return false;
    memset(&at, 0, sizeof at);
    memcpy(&at, list->ai_addr, (size_t)list->ai_addrlen);
    freeaddrinfo(list);
    pack(&at, found);
    return found->bytes[16] || found->bytes[17];
}

void zmg_udp_text(const zmg_address *address, char text[ZMG_UDP_TEXT_SIZE]) {
    char ip[INET6_ADDRSTRLEN] = "?";
    bool four = memcmp(address->bytes, mapped, sizeof mapped) == 0;
    inet_ntop(four ? AF_INET : AF_INET6, address->bytes + (four ? 12 : 0), ip, sizeof ip);
    snprintf(text, ZMG_UDP_TEXT_SIZE, four ? "%s:%d" : "[%s]:%d", ip,
             address->bytes[16] << 8 | address->bytes[17]);
}

void zmg_udp_send(const zmg_udp *udp, const zmg_address *to, const uint8_t *bytes, size_t length) {
    struct sockaddr_storage at;
    length_type size = unpack(to, udp->family, &at);
    (void)!sendto((int)udp->socket, (const char *)bytes, length, 0, (struct sockaddr *)&at, size);
}

bool zmg_udp_hear(const zmg_udp *udp, zmg_address *from, uint8_t *bytes, size_t room, size_t *length) {
    struct sockaddr_storage at;
    /* an error may be that of an earlier datagram to somebody who is not there */
    for (int k = 0; k < 16; k++) {
        length_type size = sizeof at;
        long long n = recvfrom((int)udp->socket, (char *)bytes, room, 0, (struct sockaddr *)&at, &size);
        if (n >= 0) {
            pack(&at, from);
            *length = (size_t)n;
            return true;
        }
        if (!NOBODY_THERE) return false;
    }
    return false;
}

uint32_t zmg_udp_now(const zmg_udp *udp) { return (uint32_t)(clock_now() - udp->began); }

void zmg_udp_send_all(const zmg_udp *udp, zmg_session *session) {
    uint8_t bytes[ZMG_DATAGRAM_SIZE];
    zmg_address to;
    size_t length;
    while ((length = zmg_session_transmit(session, &to, bytes, sizeof bytes)) > 0)
        zmg_udp_send(udp, &to, bytes, length);
}

uint32_t zmg_udp_exchange(const zmg_udp *udp, zmg_session *session, zmg_status *status) {
    uint8_t bytes[ZMG_DATAGRAM_SIZE + 1];
    zmg_address from;
    size_t length;
    /* no more than so many: whoever sends faster than they are read would hold the caller here */
    for (int k = 0; k < 256 && zmg_udp_hear(udp, &from, bytes, sizeof bytes, &length); k++) {
        zmg_session_receive(session, &from, bytes, length, zmg_udp_now(udp));
        zmg_udp_send_all(udp, session);
    }
    uint32_t now = zmg_udp_now(udp);
    *status = zmg_session_poll(session, now);
    zmg_udp_send_all(udp, session);
    return now;
}

void zmg_udp_wait(const zmg_udp *udp, const zmg_session *session, uint32_t most) {
    struct pollfd ready;
    uint32_t wait = zmg_session_wait(session, zmg_udp_now(udp));
    memset(&ready, 0, sizeof ready);
    ready.fd = (int)udp->socket;
    ready.events = POLLIN;
    (void)!poll(&ready, 1, (int)(wait < most ? wait : most));
}

zmg_status zmg_udp_key(const char *file, zmg_key *key) {
    char text[ZMG_KEY_TEXT_SIZE + 1];
    FILE *f = fopen(file, "rb");
    size_t length = f ? fread(text, 1, sizeof text, f) : 0;
    if (f) fclose(f);
    return zmg_key_from_text(key, text, length);
}

bool zmg_udp_random(zmg_random *drawn) {
#ifdef _WIN32
    for (size_t k = 0; k < sizeof drawn->bytes; k += sizeof(unsigned)) {
        unsigned number;
        if (rand_s(&number) != 0) return false;
        memcpy(drawn->bytes + k, &number, sizeof number);
    }
    return true;
#else
    FILE *f = fopen("/dev/urandom", "rb");
    bool all = f && fread(drawn->bytes, 1, sizeof drawn->bytes, f) == sizeof drawn->bytes;
    if (f) fclose(f);
    return all;
#endif
}
