/* Nanoseconds a call of the exports: the best of twenty rounds. */
#include "etherparse.h"
#include "parts.h"
#include <stdio.h>
#include <time.h>

enum { ROUNDS = 20, CALLS = 20000 };

/* Addresses of zeros cost what others do. */
static const ep_plan plan = {
    .link = 1, .ip_version = 4, .hops = 64, .transport = 17, .source_port = 1, .destination_port = 2};
static uint8_t frame[64], message[64];
static size_t len;
static ep_pool pool;

static unsigned slice(void) { return ep_slice_ethernet(frame, len).udp.source_port; }
static unsigned judge(void) { return ep_verdict_ethernet(frame, len); }
static unsigned build(void) { return (unsigned)ep_build(&plan, message, 22, frame, sizeof frame).len; }
static unsigned put_together(void) {
    ep_pool_add(&pool, first, sizeof first, 1, 0, message, sizeof message);
    return ep_pool_add(&pool, last, sizeof last, 1, 0, message, sizeof message).status;
}

static void measure(const char *name, unsigned (*call)(void), unsigned wanted) {
    double best = 1e9;
    for (int round = 0; round < ROUNDS; round++) {
        struct timespec from, to;
        unsigned sum = 0;
        clock_gettime(CLOCK_MONOTONIC, &from);
        for (int i = 0; i < CALLS; i++) sum += call();
        clock_gettime(CLOCK_MONOTONIC, &to);
        double each = ((double)(to.tv_sec - from.tv_sec) * 1e9 + (double)(to.tv_nsec - from.tv_nsec)) / CALLS;
        if (sum != wanted * CALLS) printf("%s is wrong\n", name);
        if (each < best) best = each;
    }
    printf("%-44s %8.1f\n", name, best);
}

int main(void) {
    if (ep_pool_new(&pool) != EP_DONE) return 1;
    measure("C: ep_build, 64 bytes", build, 64);
    len = 64;
    measure("C: ep_slice_ethernet, 64 bytes", slice, 1);
    measure("C: ep_verdict_ethernet, 64 bytes", judge, 1);
    measure("C: ep_pool_add, two parts of 8 bytes", put_together, EP_COMPLETED);
    ep_pool_free(&pool);
    return 0;
}
