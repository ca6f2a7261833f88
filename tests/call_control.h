// The numbers that a test and the server that it looks at have in common, in a file that CALL_CONTROL names. tests/call_log.py names them
// in the same order.
#ifndef CALL_CONTROL_H
#define CALL_CONTROL_H

#include <stdatomic.h>
#include <stdint.h>

// Dies are a bit for each. A program is a write of a slot that does not erase it.
struct control {
    // The dies whose calls are refused with EIO and not made, and how many nanoseconds a sync and a read of a slot wait before they are made.
    _Atomic uint64_t refused, sync_nanoseconds, read_nanoseconds;
    // How many syncs and writes were made, how many of the writes were of ff bytes alone, and how many programs have ended.
    _Atomic uint64_t syncs, writes, erases, programs;
    // Whether the gate is shut. While it is, reads of slots of the first dies and programs of the second dies are counted and held, until
    // enough have begun or the gate is opened.
    _Atomic uint64_t is_shut, held_reads, held_programs, enough;
    // How many calls of these have begun, and whether one was held in vain: no other is held then.
    _Atomic uint64_t begun, is_late;
    // The dies whose next read of a slot hands out wrong bytes. What the image holds stays as it is.
    _Atomic uint64_t lying;
    // The number of the thread that is refused memory, or 0, and how often memory was refused to anybody (tests/refused_memory.c).
    _Atomic uint64_t thread_without_memory, memory_refusals;
    // The write or sync from now on, the first being 1, that is refused with EIO and not made. With 0 none is.
    _Atomic uint64_t due;
    // The request for memory from now on, the first being 1, that is refused. With 0 none is.
    _Atomic uint64_t memory_due;
    // How many reads of sockets brought bytes, and how many writes of sockets began (tests/socket_calls.c).
    _Atomic uint64_t socket_reads, socket_writes;
};

extern struct control *control;

#endif
