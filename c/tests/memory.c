/* What pools, streams and sessions hold of memory, that they give all of it back when they are closed and where a call has no more, and
   that messages after the first ones take none. The linker puts these calls in the place of those of the C library
   (-Wl,--wrap). */
#include "common.h"
#include "etherparse.h"
#include "netlines.h"
#include "parts.h"

void *__real_malloc(size_t size);
void *__real_realloc(void *old, size_t size);
void __real_free(void *at);

/* The bytes that are held, the calls that took memory, and how many more may. */
static size_t held, calls, left = SIZE_MAX;

/* Before each block stands its length. */
enum { PREFIX = 16 };

static int refused(void) {
    if (!left) return 1;
    left--;
    calls++;
    return 0;
}

/* A block of this length that the C library gave, or none. */
static void *given(uint8_t *at, size_t size) {
    if (!at) return NULL;
    memcpy(at, &size, sizeof size);
    held += size;
    return at + PREFIX;
}

static size_t length_of(const uint8_t *block) {
    size_t size;
    memcpy(&size, block - PREFIX, sizeof size);
    return size;
}

void *__wrap_malloc(size_t size) { return refused() ? NULL : given(__real_malloc(PREFIX + size), size); }

void *__wrap_realloc(void *old, size_t size) {
    if (!old) return __wrap_malloc(size);
    if (refused()) return NULL;
    const size_t before = length_of(old);
    void *at = given(__real_realloc((uint8_t *)old - PREFIX, PREFIX + size), size);
    held -= at ? before : 0;
    return at;
}

void __wrap_free(void *at) {
    if (!at) return;
    held -= length_of(at);
    __real_free((uint8_t *)at - PREFIX);
}

static uint8_t room[256];

/* A message that has room at once, one that is kept first, and one that is given up. */
static int goes_round(ep_pool *pool) {
    int right = ep_pool_add(pool, first, sizeof first, 1, 0, room, sizeof room).status == EP_DONE &&
                ep_pool_add(pool, last, sizeof last, 1, 0, room, sizeof room).status == EP_COMPLETED;
    right &= ep_pool_add(pool, last, sizeof last, 1, 0, room, 0).status == EP_DONE &&
             ep_pool_add(pool, first, sizeof first, 1, 0, room, 0).status == EP_NO_ROOM &&
             ep_pool_take(pool, room, sizeof room).status == EP_COMPLETED;
    right &= ep_pool_add(pool, first, sizeof first, 1, 0, room, sizeof room).status == EP_DONE &&
             ep_pool_forget_before(pool, 2) == EP_DONE;
    return right && ep_pool_open(pool) == 0;
}

/* The first round takes memory, and the others take none. */
static void pool_rounds(void) {
    const size_t before = held;
    ep_pool pool = {0};
    check(ep_pool_new(&pool) == EP_DONE && held > before, "a pool takes memory");
    const size_t cold = calls;
    check(goes_round(&pool) && calls > cold, "the first messages take memory");
    const size_t warm = calls;
    int right = 1;
    for (int i = 0; i < 10; i++) right &= goes_round(&pool);
    check(right && calls == warm, "the messages after them take none");
    ep_pool_free(&pool);
    check(held == before, "a pool with spare memory gives it back");
}

static void freed_pools(void) {
    const size_t before = held;
    ep_pool pool = {0};
    check(ep_pool_new(&pool) == EP_DONE, "a pool");
    ep_pool_add(&pool, first, sizeof first, 1, 0, room, sizeof room);
    ep_pool_free(&pool);
    check(held == before, "a pool with a fragment gives it back");
    check(ep_pool_new(&pool) == EP_DONE, "opened again");
    ep_pool_add(&pool, first, sizeof first, 1, 1, room, 0);
    ep_pool_add(&pool, first, sizeof first, 1, 0, room, 0);
    check(ep_pool_add(&pool, last, sizeof last, 1, 0, room, 0).status == EP_NO_ROOM, "a message is kept");
    ep_pool_free(&pool);
    check(held == before, "a pool with a message that is kept gives it back");
}

/* Each call of a pool that takes memory is refused in turn. */
static void pools_without_memory(void) {
    const size_t before = held;
    size_t refusals = 0;
    for (size_t more = 0; more < 100; more++) {
        ep_pool pool = {0};
        left = more;
        if (ep_pool_new(&pool) == EP_DONE) {
            const uint32_t status = ep_pool_add(&pool, first, sizeof first, 1, 0, room, sizeof room).status;
            const uint32_t end = ep_pool_add(&pool, last, sizeof last, 1, 0, room, sizeof room).status;
            refusals += status == EP_NO_MEMORY || end == EP_NO_MEMORY;
            if (end == EP_COMPLETED) more = 100;
        } else {
            refusals++;
            check(!pool.is_open, "a pool that isn't open");
        }
        left = SIZE_MAX;
        ep_pool_free(&pool);
        check(held == before, "a pool without memory gives back what it has");
    }
    check(refusals > 1, "memory was refused");
}

static uint32_t add_segment(ep_stream *stream, uint32_t sequence_number, uint8_t byte) {
    const ep_segment_flags flags = {.ack = true};
    return ep_stream_add(stream, sequence_number, &flags, &byte, 1).status;
}

static void freed_streams(void) {
    const size_t before = held;
    const ep_segment_flags fin = {.fin = true};
    ep_stream stream = {0};
    check(ep_stream_new(&stream, 64) == EP_DONE && held > before, "a stream takes memory");
    check(add_segment(&stream, 1, 1) == EP_DONE && add_segment(&stream, 3, 3) == EP_DONE, "segments with a gap");
    left = 0;
    check(ep_stream_read(&stream, room, sizeof room) == 1, "to read takes none");
    check(ep_stream_add(&stream, 1, &fin, room, 0).status == EP_DONE, "a segment without a byte takes none");
    check(ep_stream_progress_of(&stream).gap.end == 2, "nor does a look at it");
    left = SIZE_MAX;
    ep_stream_free(&stream);
    check(held == before, "a stream with a gap gives it back");
}

/* Each call of a stream that takes memory is refused in turn. Nothing is changed then. */
static void streams_without_memory(void) {
    const size_t before = held;
    size_t refusals = 0;
    for (size_t more = 0; more < 100; more++) {
        ep_stream stream = {0};
        left = more;
        if (ep_stream_new(&stream, 64) == EP_DONE) {
            const uint32_t first_status = add_segment(&stream, 1, 1);
            const size_t came = ep_stream_progress_of(&stream).available;
            check(came == (first_status == EP_DONE), "a segment for which there is memory");
            const uint32_t status = add_segment(&stream, 3, 3);
            check((ep_stream_progress_of(&stream).gap.end != 0) == (first_status == EP_DONE && status == EP_DONE), "a gap");
            refusals += first_status == EP_NO_MEMORY || status == EP_NO_MEMORY;
            if (first_status == EP_DONE && status == EP_DONE) more = 100;
        } else {
            refusals++;
            check(!stream.is_open, "a stream that isn't open");
        }
        left = SIZE_MAX;
        ep_stream_free(&stream);
        check(held == before, "a stream without memory gives back what it has");
    }
    check(refusals > 1, "memory was refused");
}

static const char lines[] = "frame 0 02000000000202000000000108004500001c00072000401146c80a0000010a000002000100020010dbb4\n"
                            "frame 1 02000000000202000000000108004500001c00072000401146c80a0000010a000002000100020010dbb4\n"
                            "frame 0 02000000000202000000000108004500001c00070001401166c70a0000010a0000020102030405060708\n?";

static uint32_t feed(netlines_session *session, size_t len) {
    size_t written = 0;
    return netlines_feed(session, (const uint8_t *)lines, sizeof lines - 1, room, len, &written);
}

static void sessions(void) {
    const size_t before = held;
    size_t written = 0;
    netlines_session session = {0};
    check(netlines_open(&session) == NETLINES_ANSWERED, "a session");
    check(held - before == 365928, "an open session holds what docs/LANGUAGES.md says");
    check(feed(&session, sizeof room) == NETLINES_ANSWERED, "lines");
    netlines_close(&session);
    check(held == before, "a session with a fragment gives all back");
    check(netlines_open(&session) == NETLINES_ANSWERED && feed(&session, 0) == NETLINES_NO_ROOM, "answers that wait");
    netlines_close(&session);
    check(held == before, "and so does one whose answers wait");
    check(netlines_open(&session) == NETLINES_ANSWERED && feed(&session, sizeof room) == NETLINES_ANSWERED, "once more");
    check(netlines_finish(&session, room, sizeof room, &written) == NETLINES_ANSWERED, "the end");
    netlines_close(&session);
    check(held == before, "and one that was told the end");
}

/* Each call of a session that takes memory is refused in turn. */
static void sessions_without_memory(void) {
    const size_t before = held;
    size_t refusals = 0;
    for (size_t more = 0; more < 100; more++) {
        netlines_session session = {0};
        left = more;
        if (netlines_open(&session) == NETLINES_ANSWERED) {
            const uint32_t status = feed(&session, sizeof room);
            check(status == NETLINES_NO_MEMORY ? !session.is_open : status == NETLINES_ANSWERED, "a session is closed");
            refusals += status == NETLINES_NO_MEMORY;
            if (status == NETLINES_ANSWERED) more = 100;
        } else {
            refusals++;
            check(!session.is_open, "a session that isn't open");
        }
        left = SIZE_MAX;
        netlines_close(&session);
        check(held == before, "a session without memory gives back what it has");
    }
    check(refusals > 1, "memory was refused");
}

/* Calls that hold nothing between them. */
static void others(void) {
    const size_t before = held;
    const ep_plan plan = {.ip_version = 4, .hops = 64, .transport = 17};
    size_t written = 0;
    check(ep_build(&plan, room, 8, room + 128, 128).status == EP_DONE, "a packet");
    check(ep_build(&plan, room, 8, room + 128, 0).status == EP_NO_ROOM, "a packet without room");
    check(netlines_answers((const uint8_t *)lines, sizeof lines - 1, room, sizeof room, &written) == NETLINES_ANSWERED, "answers");
    check(netlines_answers((const uint8_t *)lines, sizeof lines - 1, room, 0, &written) == NETLINES_NO_ROOM, "and without room");
    check(held == before, "they hold nothing");
    left = 0;
    check(ep_build(&plan, room, 8, room + 128, 128).status == EP_NO_MEMORY, "no memory for a packet");
    check(netlines_answers((const uint8_t *)lines, sizeof lines - 1, room, sizeof room, &written) == NETLINES_NO_MEMORY,
          "nor for answers");
    left = SIZE_MAX;
    check(held == before, "nothing is held then");
}

int main(void) {
    pool_rounds();
    freed_pools();
    pools_without_memory();
    freed_streams();
    streams_without_memory();
    sessions();
    sessions_without_memory();
    others();
    return counted();
}
