// A part of the library of tests/call_log.c that looks at the sockets of a server. It counts the reads that brought bytes, and each write
// before it is made, and lets no call move more than MOST bytes. A read of more than LONG bytes waits for all of them, so that how often a
// socket is read does not depend on how the bytes come.
#define _GNU_SOURCE
#include <dlfcn.h>
#include <errno.h>
#include <sys/socket.h>
#include <sys/uio.h>
#include <unistd.h>

#include "call_control.h"

enum { MOST = 1000000, LONG = 8192, PARTS = 16 };

#define NEXT(name) ((__typeof__(&name))dlsym(RTLD_NEXT, #name))

static int is_socket(int file) {
    int error = errno, kind;
    socklen_t size = sizeof kind;
    int answer = getsockopt(file, SOL_SOCKET, SO_TYPE, &kind, &size);
    errno = error;
    return !answer;
}

static size_t least(size_t one, size_t other) {
    return one < other ? one : other;
}

static ssize_t was_read(ssize_t count) {
    control->socket_reads += count > 0;
    return count;
}

// The first MOST bytes of these parts, as parts. The answer is how many these are.
static size_t cut(const struct iovec *parts, size_t count, struct iovec *out) {
    size_t left = MOST, made = 0;
    for (; made < count && made < PARTS && left; made++) {
        out[made] = (struct iovec){parts[made].iov_base, least(parts[made].iov_len, left)};
        left -= out[made].iov_len;
    }
    return made;
}

ssize_t recv(int file, void *data, size_t count, int flags) {
    int waits = count > LONG && !(flags & MSG_DONTWAIT) ? MSG_WAITALL : 0;
    return was_read(NEXT(recv)(file, data, least(count, MOST), flags | waits));
}

ssize_t read(int file, void *data, size_t count) {
    return is_socket(file) ? recv(file, data, count, 0) : NEXT(read)(file, data, count);
}

ssize_t send(int file, const void *data, size_t count, int flags) {
    control->socket_writes++;
    return NEXT(send)(file, data, least(count, MOST), flags);
}

ssize_t write(int file, const void *data, size_t count) {
    return is_socket(file) ? send(file, data, count, 0) : NEXT(write)(file, data, count);
}

ssize_t sendmsg(int file, const struct msghdr *message, int flags) {
    struct iovec parts[PARTS];
    struct msghdr part = *message;
    part.msg_iovlen = cut(message->msg_iov, message->msg_iovlen, parts);
    part.msg_iov = parts;
    control->socket_writes++;
    return NEXT(sendmsg)(file, &part, flags);
}

ssize_t writev(int file, const struct iovec *given, int count) {
    struct iovec parts[PARTS];
    if (!is_socket(file))
        return NEXT(writev)(file, given, count);
    control->socket_writes++;
    return NEXT(writev)(file, parts, cut(given, count, parts));
}
