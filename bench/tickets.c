// Draws tickets by an atomic addition and keeps them in a list that grows, in one thread or several.
// A line has the number of threads and how many tickets each draws. The answer is how many were drawn.
#include <inttypes.h>
#include <pthread.h>
#include <stdatomic.h>
#include <stdio.h>
#include <stdlib.h>

static _Atomic uint64_t next = 1;

struct lane {
    uint32_t count;
    uint64_t *drawn;
    size_t length;
    size_t room;
};

static void *draw_all(void *argument) {
    struct lane *lane = argument;
    for (uint32_t i = 0; i < lane->count; i++) {
        uint64_t ticket = atomic_fetch_add(&next, 1);
        if (lane->length == lane->room) {
            lane->room = lane->room == 0 ? 4 : 2 * lane->room;
            lane->drawn = realloc(lane->drawn, lane->room * sizeof *lane->drawn);
            if (lane->drawn == NULL) {
                abort();
            }
        }
        lane->drawn[lane->length++] = ticket;
    }
    return NULL;
}

int main(void) {
    unsigned threads;
    uint32_t count;
    while (scanf("%u %" SCNu32, &threads, &count) == 2 && threads >= 1 && threads <= 4) {
        struct lane lanes[4] = {0};
        pthread_t handles[4];
        size_t drawn = 0;
        for (unsigned i = 0; i < threads; i++) {
            lanes[i].count = count;
            if (pthread_create(&handles[i], NULL, draw_all, &lanes[i]) != 0) {
                abort();
            }
        }
        for (unsigned i = 0; i < threads; i++) {
            pthread_join(handles[i], NULL);
            drawn += lanes[i].length;
            free(lanes[i].drawn);
        }
        printf("%u %" PRIu32 " %zu\n", threads, count, drawn);
    }
    return 0;
}
