// A load for a server of NBD: random reads, or random writes, of one length, at multiples of that length, with one request in flight on
// each connection. One thread drives all connections, so that it takes less of the machine than the servers that it is to measure. It
// prints one line of names and numbers: the requests that were answered, the nanoseconds from the first request to the last answer, how
// long an answer took at the median and at the 99th percentile and at most, the processor time that the load itself took, all in
// nanoseconds, and how many answers were errors.
//
// usage: load PORT EXPORT read|write LENGTH CONNECTIONS SECONDS SEED
#include <algorithm>
#include <cerrno>
#include <cstdint>
#include <cstdio>
#include <cstdlib>
#include <cstring>
#include <random>
#include <string>
#include <vector>

#include <arpa/inet.h>
#include <endian.h>
#include <netinet/in.h>
#include <netinet/tcp.h>
#include <sys/epoll.h>
#include <sys/socket.h>
#include <time.h>
#include <unistd.h>

namespace {

// The numbers of the NBD protocol.
constexpr uint64_t HAVE_OPTION = 0x49484156454F5054;
constexpr uint32_t FIXED_NEWSTYLE = 1, NO_ZEROES = 2, EXPORT_NAME = 1;
constexpr uint32_t REQUEST = 0x25609513, REPLY = 0x67446698;
constexpr uint16_t READ = 0, WRITE = 1, DISCONNECT = 2;
constexpr size_t REQUEST_BYTES = 28, REPLY_BYTES = 16, GREETING_BYTES = 18;

[[noreturn]] void fail(const std::string &words) {
    std::fprintf(stderr, "load: %s\n", words.c_str());
    std::exit(1);
}

uint64_t nanoseconds(clockid_t clock) {
    timespec time;
    clock_gettime(clock, &time);
    return uint64_t(time.tv_sec) * 1'000'000'000 + uint64_t(time.tv_nsec);
}

struct Load {
    int port;
    std::string name;
    bool writes;
    size_t length;
    size_t connections;
    double seconds;
    uint64_t seed;
};

template <class Number> void put(uint8_t *&at, Number number) {
    for (int place = sizeof(Number) - 1; place >= 0; place--)
        *at++ = uint8_t(uint64_t(number) >> (8 * place));
}

uint32_t u32_at(const uint8_t *at) {
    uint32_t number;
    std::memcpy(&number, at, sizeof number);
    return be32toh(number);
}

uint64_t u64_at(const uint8_t *at) {
    uint64_t number;
    std::memcpy(&number, at, sizeof number);
    return be64toh(number);
}

// One connection. What goes out and what comes in is counted, so that it goes on wherever the socket stopped.
struct Connection {
    int socket = -1;
    uint64_t size = 0;
    std::vector<uint8_t> out, in;
    size_t sent = 0, heard = 0, wanted_out = 0, wanted_in = 0;
    uint64_t began = 0;
    bool is_waiting = false;

    void open(const Load &load) {
        socket = ::socket(AF_INET, SOCK_STREAM, 0);
        sockaddr_in address{};
        address.sin_family = AF_INET;
        address.sin_port = htons(uint16_t(load.port));
        address.sin_addr.s_addr = htonl(INADDR_LOOPBACK);
        if (socket < 0 || connect(socket, reinterpret_cast<sockaddr *>(&address), sizeof address) != 0)
            fail(std::string("no connection: ") + std::strerror(errno));
        int on = 1;
        setsockopt(socket, IPPROTO_TCP, TCP_NODELAY, &on, sizeof on);
        greet(load);
        in.resize(REPLY_BYTES + load.length);
        out.resize(REQUEST_BYTES + (load.writes ? load.length : 0));
    }

    void greet(const Load &load) {
        uint8_t greeting[GREETING_BYTES], option[20], answer[10];
        read_all(greeting, sizeof greeting);
        if (u64_at(greeting + 8) != HAVE_OPTION)
            fail("the server speaks another protocol");
        uint8_t *at = option;
        put(at, FIXED_NEWSTYLE | NO_ZEROES);
        put(at, HAVE_OPTION);
        put(at, EXPORT_NAME);
        put(at, uint32_t(load.name.size()));
        write_all(option, sizeof option);
        write_all(reinterpret_cast<const uint8_t *>(load.name.data()), load.name.size());
        read_all(answer, sizeof answer);
        size = u64_at(answer);
        if (size < load.length)
            fail("the disk is shorter than a request");
    }

    void read_all(uint8_t *to, size_t count) {
        for (size_t done = 0; done < count;) {
            ssize_t more = recv(socket, to + done, count - done, 0);
            if (more <= 0)
                fail("the server closed a connection");
            done += size_t(more);
        }
    }

    void write_all(const uint8_t *from, size_t count) {
        for (size_t done = 0; done < count;) {
            ssize_t more = send(socket, from + done, count - done, MSG_NOSIGNAL);
            if (more <= 0)
                fail("the server closed a connection");
            done += size_t(more);
        }
    }

    // The next request, at a random multiple of the length.
    void begin(const Load &load, std::mt19937_64 &random) {
        uint64_t place = std::uniform_int_distribution<uint64_t>(0, size / load.length - 1)(random);
        uint8_t *at = out.data();
        put(at, REQUEST);
        put(at, uint16_t(0));
        put(at, load.writes ? WRITE : READ);
        put(at, place);
        put(at, place * load.length);
        put(at, uint32_t(load.length));
        // Each payload differs from the one before.
        if (load.writes)
            put(at, random());
        sent = heard = 0;
        wanted_out = out.size();
        wanted_in = REPLY_BYTES + (load.writes ? 0 : load.length);
        is_waiting = true;
        began = nanoseconds(CLOCK_MONOTONIC);
    }

    // Sends and hears what goes without waiting, or all where `waits` is set. Whether the answer is whole.
    bool go_on(bool waits) {
        const int how = waits ? 0 : MSG_DONTWAIT;
        while (sent < wanted_out) {
            ssize_t more = send(socket, out.data() + sent, wanted_out - sent, how | MSG_NOSIGNAL);
            if (more < 0 && (errno == EAGAIN || errno == EINTR))
                return false;
            if (more <= 0)
                fail("the server closed a connection");
            sent += size_t(more);
        }
        while (heard < wanted_in) {
            ssize_t more = recv(socket, in.data() + heard, wanted_in - heard, how);
            if (more < 0 && (errno == EAGAIN || errno == EINTR))
                return false;
            if (more <= 0)
                fail("the server closed a connection");
            heard += size_t(more);
            // An error has no data behind it.
            if (heard >= REPLY_BYTES && u32_at(in.data() + 4) != 0)
                wanted_in = REPLY_BYTES;
        }
        if (u32_at(in.data()) != REPLY)
            fail("an answer does not begin as one");
        is_waiting = false;
        return true;
    }

    void leave() {
        uint8_t words[REQUEST_BYTES], *at = words;
        put(at, REQUEST);
        put(at, uint16_t(0));
        put(at, DISCONNECT);
        put(at, uint64_t(0));
        put(at, uint64_t(0));
        put(at, uint32_t(0));
        write_all(words, sizeof words);
        close(socket);
    }
};

struct Told {
    std::vector<uint32_t> took;
    uint64_t errors = 0;

    void note(const Connection &connection, uint64_t now) {
        took.push_back(uint32_t(std::min<uint64_t>(now - connection.began, UINT32_MAX)));
        errors += u32_at(connection.in.data() + 4) != 0;
    }

    uint32_t part(double of) {
        if (took.empty())
            return 0;
        auto at = took.begin() + std::min(took.size() - 1, size_t(double(took.size()) * of));
        std::nth_element(took.begin(), at, took.end());
        return *at;
    }
};

// Waits for one connection in its calls.
void drive_one(const Load &load, Connection &one, std::mt19937_64 &random, uint64_t end, Told &told) {
    for (uint64_t now = 0; now < end;) {
        one.begin(load, random);
        while (!one.go_on(true)) {
        }
        now = nanoseconds(CLOCK_MONOTONIC);
        told.note(one, now);
    }
}

void drive_all(const Load &load, std::vector<Connection> &all, std::mt19937_64 &random, uint64_t end, Told &told) {
    const int poll = epoll_create1(0);
    for (size_t number = 0; number < all.size(); number++) {
        epoll_event event{};
        event.events = EPOLLIN | EPOLLOUT | EPOLLET;
        event.data.u64 = number;
        if (poll < 0 || epoll_ctl(poll, EPOLL_CTL_ADD, all[number].socket, &event) != 0)
            fail("no poll");
        all[number].begin(load, random);
    }
    size_t at_work = all.size();
    std::vector<epoll_event> events(all.size());
    while (at_work > 0) {
        const int count = epoll_wait(poll, events.data(), int(events.size()), -1);
        for (int index = 0; index < count; index++) {
            Connection &one = all[events[size_t(index)].data.u64];
            while (one.is_waiting && one.go_on(false)) {
                const uint64_t now = nanoseconds(CLOCK_MONOTONIC);
                told.note(one, now);
                if (now < end)
                    one.begin(load, random);
                else
                    at_work--;
            }
        }
    }
    close(poll);
}

} // namespace

int main(int count, char **words) {
    if (count != 8)
        fail("usage: load PORT EXPORT read|write LENGTH CONNECTIONS SECONDS SEED");
    const Load load{std::atoi(words[1]), words[2], std::string(words[3]) == "write", size_t(std::atoll(words[4])), size_t(std::atoll(words[5])),
                    std::atof(words[6]), uint64_t(std::atoll(words[7]))};
    std::mt19937_64 random(load.seed);
    std::vector<Connection> all(load.connections);
    for (Connection &one : all) {
        one.open(load);
        for (size_t at = REQUEST_BYTES; at < one.out.size(); at++)
            one.out[at] = uint8_t(random());
    }
    Told told;
    told.took.reserve(1 << 20);
    const uint64_t own = nanoseconds(CLOCK_PROCESS_CPUTIME_ID), began = nanoseconds(CLOCK_MONOTONIC);
    const uint64_t end = began + uint64_t(load.seconds * 1e9);
    if (all.size() == 1)
        drive_one(load, all[0], random, end, told);
    else
        drive_all(load, all, random, end, told);
    const uint64_t took = nanoseconds(CLOCK_MONOTONIC) - began, processor = nanoseconds(CLOCK_PROCESS_CPUTIME_ID) - own;
    for (Connection &one : all)
        one.leave();
    std::printf("requests %zu nanoseconds %llu median %u most_of %u longest %u processor %llu errors %llu\n", told.took.size(),
                static_cast<unsigned long long>(took), told.part(0.5), told.part(0.99), told.part(1.0),
                static_cast<unsigned long long>(processor), static_cast<unsigned long long>(told.errors));
}
