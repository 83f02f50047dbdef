/* Asks for one path some times, and writes the nanoseconds of the fastest call. `call` is pathdb_path. */
#define _POSIX_C_SOURCE 199309L
#include "pathdb.h"

#include <time.h>

typedef pathdb_status path_call(const uint32_t *words, size_t count, pathdb_cell start, pathdb_cell goal,
                                uint8_t *moves, size_t room, uint32_t *length);

static uint64_t now(void)
{
    struct timespec time;
    clock_gettime(CLOCK_MONOTONIC, &time);
    return (uint64_t)time.tv_sec * 1000000000u + (uint64_t)time.tv_nsec;
}

uint32_t timed_path(path_call *call, const uint32_t *words, size_t count, pathdb_cell start, pathdb_cell goal,
                    uint8_t *moves, size_t room, uint32_t *length, uint32_t rounds, uint64_t *nanoseconds)
{
    pathdb_status status = PATHDB_DONE;
    *nanoseconds = UINT64_MAX;
    for (uint32_t round = 0; round < rounds; round++) {
        const uint64_t began = now();
        status = call(words, count, start, goal, moves, room, length);
        const uint64_t taken = now() - began;
        if (taken < *nanoseconds) *nanoseconds = taken;
    }
    return status;
}
