/* Sends datagrams of any bytes to one address as fast as it is told, for so many seconds.
 *
 *     flood ADDRESS PORT DATAGRAMS_A_MINUTE SECONDS SEED BYTES_OF_A_CALL
 *
 * Prints how many it sent. One in four has the first bytes of the program's own datagrams. One in four is as
 * long as a call to a host and has its first twelve bytes, which are those of all games with a key: only its
 * tag shows that it is none, so it costs the host the time of a tag, and gets a hint. */
#include <arpa/inet.h>
#include <stdint.h>
#include <stdio.h>
#include <stdlib.h>
#include <string.h>
#include <sys/socket.h>
#include <time.h>

static uint64_t state;

static uint64_t drawn(void) {
    state ^= state << 13;
    state ^= state >> 7;
    state ^= state << 17;
    return state;
}

/* The suite, the kind, the name and the version of greetings, and that it is a call. */
static const uint8_t call[12] = {1, 4, 'z', 'i', 'r', 'm', 'e', 'g', 'a', 't', 2, 1};

static double now(void) {
    struct timespec time;
    clock_gettime(CLOCK_MONOTONIC, &time);
    return (double)time.tv_sec + (double)time.tv_nsec / 1e9;
}

int main(int count, char **words) {
    struct sockaddr_in to = {.sin_family = AF_INET};
    uint8_t bytes[600];
    unsigned long sent = 0;
    if (count != 7 || inet_pton(AF_INET, words[1], &to.sin_addr) != 1) return 2;
    size_t call_bytes = (size_t)atoi(words[6]);
    if (call_bytes < sizeof call || call_bytes > sizeof bytes) return 2;
    to.sin_port = htons((uint16_t)atoi(words[2]));
    double rate = atof(words[3]) / 60, seconds = atof(words[4]);
    state = strtoull(words[5], NULL, 10) * 2 + 1;
    int line = socket(AF_INET, SOCK_DGRAM, 0);
    if (line < 0 || connect(line, (struct sockaddr *)&to, sizeof to) != 0) return 3;
    double begun = now();
    for (double past = 0; past < seconds; past = now() - begun) {
        while ((double)sent < past * rate) {
            uint64_t sort = drawn() % 4;
            size_t length = sort == 1 ? call_bytes : drawn() % sizeof bytes;
            for (size_t at = 0; at < length; at += 8) {
                uint64_t piece = drawn();
                size_t more = length - at < 8 ? length - at : 8;
                memcpy(bytes + at, &piece, more);
            }
            if (length > 2 && sort == 0) bytes[0] = 1, bytes[1] %= 8;
            if (sort == 1) memcpy(bytes, call, sizeof call);
            send(line, bytes, length, 0);
            sent++;
        }
        struct timespec pause = {0, 200000};
        nanosleep(&pause, NULL);
    }
    printf("%lu\n", sent);
    return 0;
}
