// Writes random pages on connections that are in transmission, one request in flight on each, for a time.
//
// usage: writes SECONDS PAGES PAGE_BYTES FLUSH_EVERY SEED SOCKET..
//
// Behind each FLUSH_EVERY writes of a connection comes a FLUSH, where that is not 0. Printed are how many pages were written, how many
// flushes were answered, and the nanoseconds from the first request to the last answer. Any error that is answered ends the program.
#include <arpa/inet.h>
#include <endian.h>
#include <pthread.h>
#include <stdint.h>
#include <stdio.h>
#include <stdlib.h>
#include <string.h>
#include <sys/socket.h>
#include <sys/uio.h>
#include <time.h>
#include <unistd.h>

enum { WRITE = 1, FLUSH = 3, MOST = 64 };

static double seconds;
static uint64_t pages, page_bytes, flush_every;

struct connection {
    int socket;
    uint64_t random, cookie, written, flushes;
    pthread_t thread;
};

static uint64_t now(void) {
    struct timespec time;
    clock_gettime(CLOCK_MONOTONIC, &time);
    return time.tv_sec * 1000000000ull + time.tv_nsec;
}

static uint64_t next_random(uint64_t *random) {
    *random ^= *random << 13;
    *random ^= *random >> 7;
    return *random ^= *random << 17;
}

static void fail(const char *what) {
    fprintf(stderr, "writes: %s\n", what);
    exit(1);
}

static void request(struct connection *its, uint16_t command, uint64_t offset, unsigned char *data, uint32_t count) {
    struct __attribute__((packed)) {
        uint32_t magic;
        uint16_t flags, command;
        uint64_t cookie, offset;
        uint32_t count;
    } head = {htonl(0x25609513), 0, htons(command), htobe64(++its->cookie), htobe64(offset), htonl(count)};
    struct iovec parts[] = {{&head, sizeof head}, {data, count}};
    size_t left = sizeof head + count;
    while (left) {
        ssize_t sent = writev(its->socket, parts, 2);
        if (sent <= 0)
            fail("a request cannot be sent");
        left -= sent;
        for (int i = 0; i < 2; i++) {
            size_t part = (size_t)sent < parts[i].iov_len ? (size_t)sent : parts[i].iov_len;
            parts[i].iov_base = (char *)parts[i].iov_base + part;
            parts[i].iov_len -= part;
            sent -= part;
        }
    }
    unsigned char reply[16];
    if (recv(its->socket, reply, sizeof reply, MSG_WAITALL) != sizeof reply)
        fail("the server has closed a connection");
    if (memcmp(reply, "\x67\x44\x66\x98\0\0\0\0", 8))
        fail("a request was refused");
}

static void *works(void *given) {
    struct connection *its = given;
    unsigned char *data = malloc(page_bytes);
    for (uint64_t i = 0; i < page_bytes; i++)
        data[i] = next_random(&its->random);
    for (uint64_t end = now() + (uint64_t)(seconds * 1e9); now() < end;) {
        memcpy(data, &its->random, sizeof its->random);
        request(its, WRITE, next_random(&its->random) % pages * page_bytes, data, page_bytes);
        its->written++;
        if (flush_every && its->written % flush_every == 0) {
            request(its, FLUSH, 0, NULL, 0);
            its->flushes++;
        }
    }
    free(data);
    return NULL;
}

int main(int count, char **words) {
    struct connection all[MOST] = {0};
    int connections = count - 6;
    if (connections < 1 || connections > MOST)
        fail("there are 1 to 64 sockets");
    seconds = atof(words[1]);
    pages = strtoull(words[2], NULL, 10);
    page_bytes = strtoull(words[3], NULL, 10);
    flush_every = strtoull(words[4], NULL, 10);
    uint64_t began = now(), written = 0, flushes = 0;
    for (int i = 0; i < connections; i++) {
        all[i].socket = atoi(words[6 + i]);
        all[i].random = 0x9e3779b97f4a7c15ull * (strtoull(words[5], NULL, 10) * MOST + i + 1);
        // Cookies are never looked at but by the server, so each run may begin anew.
        if (pthread_create(&all[i].thread, NULL, works, &all[i]))
            fail("a thread cannot be started");
    }
    for (int i = 0; i < connections; i++) {
        pthread_join(all[i].thread, NULL);
        written += all[i].written;
        flushes += all[i].flushes;
    }
    printf("%llu %llu %llu\n", (unsigned long long)written, (unsigned long long)flushes, (unsigned long long)(now() - began));
    return 0;
}
