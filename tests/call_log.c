// A library that a test puts before the C library of a server (LD_PRELOAD). It looks at the calls on images, the files named d0.img,
// d1.img and so on, and passes each of them on. CALL_LOG names the file to which their records are appended, if there is to be one.
// CALL_CONTROL names the file of the numbers that the test and the server have in common (tests/call_control.h). By these it counts calls,
// refuses them, has them wait, and has a read hand out wrong bytes.
//
// A call has a record before it is made, and one after it. A record is its head and the bytes of a write, if they are not all ff. Each
// record is appended by one call of the system, so the log has whole records alone, and its length is a moment of the server's life.
#define _GNU_SOURCE
#include <dlfcn.h>
#include <errno.h>
#include <fcntl.h>
#include <pthread.h>
#include <stdarg.h>
#include <stdatomic.h>
#include <stdint.h>
#include <stdio.h>
#include <stdlib.h>
#include <string.h>
#include <sys/mman.h>
#include <sys/types.h>
#include <sys/uio.h>
#include <time.h>
#include <unistd.h>

#include "call_control.h"

enum { WRITE = 0, ERASE = 1, SYNC = 2, REFUSED = 3 };
// Where the slots of an image begin, and how often it is looked whether a call is held any longer, a millisecond apart.
enum { DIES = 64, FILES = 4096, HEADER_END = 4096, TURNS = 10000 };

struct head {
    uint32_t data;
    uint8_t kind, die, is_end, unused;
    uint64_t call, offset, count;
    int64_t result;
};

static struct control unshared;
struct control *control = &unshared;
static int log_file = -1;
static _Atomic uint64_t calls;
// One more than the die whose image a file is, and 0 for any other file.
static unsigned char die_of[FILES];

static int (*next_open)(const char *, int, ...);
static int (*next_close)(int);
static ssize_t (*next_pread)(int, void *, size_t, off_t);
static ssize_t (*next_pwrite)(int, const void *, size_t, off_t);
static int (*next_fsync)(int);
static int (*next_fdatasync)(int);

__attribute__((constructor)) static void begin(void) {
    next_open = dlsym(RTLD_NEXT, "open");
    next_close = dlsym(RTLD_NEXT, "close");
    next_pread = dlsym(RTLD_NEXT, "pread");
    next_pwrite = dlsym(RTLD_NEXT, "pwrite");
    next_fsync = dlsym(RTLD_NEXT, "fsync");
    next_fdatasync = dlsym(RTLD_NEXT, "fdatasync");
    const char *path = getenv("CALL_LOG");
    if (path && (log_file = next_open(path, O_WRONLY | O_APPEND | O_CREAT | O_CLOEXEC, 0600)) < 0)
        abort();
    path = getenv("CALL_CONTROL");
    if (path) {
        int file = next_open(path, O_RDWR | O_CLOEXEC);
        void *shared = mmap(NULL, sizeof(struct control), PROT_READ | PROT_WRITE, MAP_SHARED, file, 0);
        if (file < 0 || shared == MAP_FAILED)
            abort();
        control = shared;
        next_close(file);
    }
}

static int die_at(int file) {
    return file >= 0 && file < FILES ? die_of[file] - 1 : -1;
}

static void append(struct head head, const void *data) {
    struct iovec parts[] = {{&head, sizeof head}, {(void *)data, head.data}};
    if (log_file >= 0 && writev(log_file, parts, 2) != (ssize_t)(sizeof head + head.data))
        abort();
}

static int is_erase(const unsigned char *data, size_t count) {
    return count && data[0] == 0xff && !memcmp(data, data + 1, count - 1);
}

// Whether this write or sync is the one that is refused.
static int is_due(void) {
    uint64_t left = control->due;
    while (left && !atomic_compare_exchange_weak(&control->due, &left, left - 1))
        ;
    return left == 1;
}

// Whether a call of a die's image is refused, which is recorded.
static int is_refused(int die, int is_read) {
    if (!(control->refused >> die & 1) && (is_read || !is_due()))
        return 0;
    append((struct head){.kind = REFUSED, .die = die, .is_end = 1, .call = calls++}, NULL);
    errno = EIO;
    return 1;
}

// Holds a call of a die's slot while the gate is shut for these dies, until enough have begun, or until the gate is opened.
static void hold(uint64_t dies, int die) {
    if (!control->is_shut || !(dies >> die & 1))
        return;
    control->begun++;
    for (int turn = 0; turn < TURNS; turn++) {
        if (control->begun >= control->enough || !control->is_shut || control->is_late)
            return;
        nanosleep(&(struct timespec){0, 1000000}, NULL);
    }
    control->is_late = 1;
}

static void wait_for(uint64_t nanoseconds) {
    struct timespec left = {nanoseconds / 1000000000, nanoseconds % 1000000000};
    while (nanoseconds && nanosleep(&left, &left) && errno == EINTR)
        ;
}

// Whether a die's next read is to hand out wrong bytes, which this one does then.
static int is_lie(int die) {
    uint64_t bit = (uint64_t)1 << die;
    return control->lying & bit && atomic_fetch_and(&control->lying, ~bit) & bit;
}

int open(const char *path, int flags, ...) {
    va_list more;
    va_start(more, flags);
    int mode = flags & O_CREAT ? va_arg(more, int) : 0;
    va_end(more);
    int file = next_open(path, flags, mode);
    const char *name = strrchr(path, '/');
    unsigned die;
    int end = 0;
    if (file >= 0 && file < FILES)
        die_of[file] = sscanf(name ? name + 1 : path, "d%2u.img%n", &die, &end) == 1 && end && die < DIES ? die + 1 : 0;
    return file;
}

int close(int file) {
    if (file >= 0 && file < FILES)
        die_of[file] = 0;
    return next_close(file);
}

ssize_t pread(int file, void *data, size_t count, off_t offset) {
    int die = die_at(file);
    if (die >= 0 && is_refused(die, 1))
        return -1;
    if (die < 0 || offset < HEADER_END)
        return next_pread(file, data, count, offset);
    hold(control->held_reads, die);
    wait_for(control->read_nanoseconds);
    ssize_t result = next_pread(file, data, count, offset);
    if (result > 0 && is_lie(die)) {
        unsigned char *bytes = data;
        for (ssize_t at = 0; at < result; at++)
            bytes[at] ^= 0xff;
    }
    return result;
}

ssize_t pwrite(int file, const void *data, size_t count, off_t offset) {
    int die = die_at(file);
    if (die < 0)
        return next_pwrite(file, data, count, offset);
    if (is_refused(die, 0))
        return -1;
    int erases = is_erase(data, count);
    int programs = !erases && offset >= HEADER_END;
    if (programs)
        hold(control->held_programs, die);
    struct head head = {.data = erases ? 0 : count, .kind = erases ? ERASE : WRITE, .die = die, .call = calls++,
                        .offset = offset, .count = count};
    append(head, data);
    control->writes++;
    control->erases += erases;
    head.result = next_pwrite(file, data, count, offset);
    int error = errno;
    control->programs += programs;
    head.data = 0;
    head.is_end = 1;
    append(head, NULL);
    errno = error;
    return head.result;
}

static int synced(int file, int (*next)(int)) {
    int die = die_at(file);
    if (die < 0)
        return next(file);
    if (is_refused(die, 0))
        return -1;
    struct head head = {.kind = SYNC, .die = die, .call = calls++};
    append(head, NULL);
    control->syncs++;
    wait_for(control->sync_nanoseconds);
    head.result = next(file);
    int error = errno;
    head.is_end = 1;
    append(head, NULL);
    errno = error;
    return head.result;
}

int fsync(int file) {
    return synced(file, next_fsync);
}

int fdatasync(int file) {
    return synced(file, next_fdatasync);
}
