/* What pools make of the frames of a table, c/tests/pools.txt, which says how its lines read: with much room, with just enough,
   with a byte too little and with none. The states of a pool, and that nothing is left when one of many parts is freed. */
#include "common.h"
#include "etherparse.h"
#include "parts.h"

enum room { MUCH, ENOUGH, TOO_LITTLE, NONE };

/* The calls that take frames, by their names in the table, and those that slice them. */
struct call {
    const char *name;
    ep_added (*add)(ep_pool *, const uint8_t *, size_t, uint64_t, uint32_t, uint8_t *, size_t);
    ep_packet (*slice)(const uint8_t *, size_t);
};

static const struct call calls[] = {
    {"add", ep_pool_add, ep_slice_ethernet},
    {"add_linux_sll", ep_pool_add_linux_sll, ep_slice_linux_sll},
    {"add_ip", ep_pool_add_ip, ep_slice_ip},
};

static const struct call *call_of(const char *name) {
    for (size_t i = 0; i < sizeof calls / sizeof *calls; i++)
        if (!strcmp(name, calls[i].name)) return &calls[i];
    exit(2);
}

static int same_refusal(ep_refusal a, ep_refusal b) {
    return a.kind == b.kind && a.layer == b.layer && a.needed == b.needed && a.there == b.there && a.place == b.place &&
           a.source == b.source && a.value == b.value;
}

static int same_part(ep_part_refusal a, ep_part_refusal b) {
    return a.kind == b.kind && a.offset == b.offset && a.previous_end == b.previous_end && a.end == b.end && a.len == b.len;
}

static int same_message(ep_message a, ep_message b) {
    return a.len == b.len && a.ip_version == b.ip_version && a.number == b.number &&
           !memcmp(a.ipv4_source, b.ipv4_source, 4) && !memcmp(a.ipv4_destination, b.ipv4_destination, 4) &&
           !memcmp(a.ipv6_source, b.ipv6_source, 16) && !memcmp(a.ipv6_destination, b.ipv6_destination, 16);
}

static int same(ep_added a, ep_added b) {
    return a.status == b.status && same_refusal(a.refusal, b.refusal) && same_part(a.part, b.part) &&
           same_message(a.message, b.message);
}

static int is_filled(const uint8_t *bytes, size_t len) {
    for (size_t i = 0; i < len; i++)
        if (bytes[i] != 7) return 0;
    return 1;
}

/* A room of this length, in which nothing is written. */
static uint8_t *room_of(size_t len) {
    uint8_t *room = block(len);
    memset(room, 7, len);
    return room;
}

/* Whether the pool keeps the message, takes no frame, and returns it once. */
static int returned_later(const struct call *by, ep_pool *pool, const uint8_t *frame, size_t len, ep_added wanted, const uint8_t *message) {
    const ep_added wrong_state = {.status = EP_WRONG_STATE};
    uint8_t *room = room_of(wanted.message.len), none = 7;
    size_t open = ep_pool_open(pool);
    int right = same(by->add(pool, frame, len, 0, 0, room, wanted.message.len), wrong_state) &&
                is_filled(room, wanted.message.len) && ep_pool_open(pool) == open;
    wanted.status = EP_NO_ROOM;
    right &= same(ep_pool_take(pool, &none, 0), wanted) && none == 7;
    wanted.status = EP_COMPLETED;
    right &= same(ep_pool_take(pool, room, wanted.message.len), wanted) && !memcmp(room, message, wanted.message.len);
    right &= same(ep_pool_take(pool, room, wanted.message.len), wrong_state);
    free(room);
    return right;
}

/* Whether a frame is answered as it is to be, with a room of this kind. */
static int answers(const struct call *by, ep_pool *pool, const uint8_t *frame, size_t len, uint64_t time, uint32_t channel,
                   ep_added wanted, const uint8_t *message, enum room kind) {
    size_t size = kind == MUCH ? wanted.message.len + 2 : kind == ENOUGH ? wanted.message.len : 0;
    if (kind == TOO_LITTLE && wanted.message.len) size = wanted.message.len - 1;
    uint8_t *room = room_of(size);
    int lacks = size < wanted.message.len;
    if (lacks) wanted.status = EP_NO_ROOM;
    int right = same(by->add(pool, frame, len, time, channel, room, size), wanted);
    size_t written = lacks ? 0 : wanted.message.len;
    right &= !memcmp(room, message, written) && is_filled(room + written, size - written);
    free(room);
    return right && (!lacks || returned_later(by, pool, frame, len, wanted, message));
}

static void read_address(const char *hex, uint8_t *address, size_t needed) {
    size_t len;
    uint8_t *bytes = block_of(hex, &len);
    if (len != needed) exit(2);
    memcpy(address, bytes, len);
    free(bytes);
}

/* What the rest of a line says of a frame, and the bytes of the message that is complete with it. */
static ep_added wanted_of(const struct call *by, const uint8_t *frame, size_t len, uint8_t **message) {
    const char *answer = strtok(NULL, " \n"), *word[5] = {0};
    ep_added wanted = {.status = EP_REFUSED};
    size_t none;
    for (int i = 0; i < 5; i++) word[i] = strtok(NULL, " \n");
    *message = block_of(!strcmp(answer, "message") ? word[4] : "-", &none);
    if (!strcmp(answer, "none")) {
        wanted.status = EP_DONE;
    } else if (!strcmp(answer, "frame")) {
        wanted.refusal = by->slice(frame, len).refusal;
        if (wanted.refusal.kind != strtoul(word[0], NULL, 10)) exit(2);
    } else if (!strcmp(answer, "part")) {
        unsigned long number[5];
        for (int i = 0; i < 5; i++) number[i] = strtoul(word[i], NULL, 10);
        wanted.part.kind = (uint32_t)number[0];
        wanted.part.offset = (uint16_t)number[1];
        wanted.part.previous_end = (uint16_t)number[2];
        wanted.part.end = (uint16_t)number[3];
        wanted.part.len = number[4];
    } else {
        ep_message *expected = &wanted.message;
        wanted.status = EP_COMPLETED;
        expected->len = strlen(word[4]) / 2;
        expected->ip_version = (uint32_t)atoi(word[0]);
        expected->number = (uint8_t)atoi(word[1]);
        if (expected->ip_version == 4) {
            read_address(word[2], expected->ipv4_source, 4);
            read_address(word[3], expected->ipv4_destination, 4);
        } else {
            read_address(word[2], expected->ipv6_source, 16);
            read_address(word[3], expected->ipv6_destination, 16);
        }
    }
    return wanted;
}

static void add(const struct call *by, ep_pool *pool, enum room kind) {
    const char *time = strtok(NULL, " "), *channel = strtok(NULL, " "), *hex = strtok(NULL, " ");
    size_t len;
    uint8_t *frame = block_of(hex, &len), *message;
    const ep_added wanted = wanted_of(by, frame, len, &message);
    check(answers(by, pool, frame, len, strtoull(time, NULL, 10), (uint32_t)strtoul(channel, NULL, 10), wanted, message, kind),
          hex);
    free(frame);
    free(message);
}

static void rows(FILE *table, enum room kind) {
    static char line[65536];
    ep_pool pool = {0};
    rewind(table);
    while (fgets(line, sizeof line, table)) {
        const char *call = strtok(line, " \n");
        if (!strcmp(call, "pool")) {
            ep_pool_free(&pool);
            check(ep_pool_new(&pool) == EP_DONE, "a new pool");
        } else if (!strcmp(call, "forget")) {
            check(ep_pool_forget_before(&pool, strtoull(strtok(NULL, " \n"), NULL, 10)) == EP_DONE, "forget");
        } else if (!strcmp(call, "open")) {
            check(ep_pool_open(&pool) == strtoul(strtok(NULL, " \n"), NULL, 10), "how many are on their way");
        } else if (*call != '#') {
            add(call_of(call), &pool, kind);
        }
    }
    ep_pool_free(&pool);
}

static void states(void) {
    const ep_added wrong_state = {.status = EP_WRONG_STATE};
    uint8_t none = 7, room[16];
    ep_pool pool = {0};
    check(same(ep_pool_add(&pool, first, sizeof first, 1, 0, &none, 0), wrong_state), "add before new");
    check(same(ep_pool_take(&pool, &none, 0), wrong_state), "take before new");
    check(ep_pool_forget_before(&pool, 1) == EP_WRONG_STATE, "forget before new");
    check(ep_pool_open(&pool) == 0 && !pool.is_open && !pool.held && none == 7, "nothing is changed");
    ep_pool_free(&pool);
    check(ep_pool_new(&pool) == EP_DONE && pool.is_open, "new");
    ep_pool_add(&pool, first, sizeof first, 1, 0, &none, 0);
    check(ep_pool_new(&pool) == EP_WRONG_STATE && ep_pool_open(&pool) == 1, "new twice, and nothing is changed");
    check(same(ep_pool_take(&pool, room, sizeof room), wrong_state), "no message is kept");
    check(ep_pool_add(&pool, last, sizeof last, 1, 0, &none, 0).status == EP_NO_ROOM, "a message is kept");
    check(ep_pool_forget_before(&pool, 9) == EP_DONE && ep_pool_open(&pool) == 0, "forget while it is kept");
    check(ep_pool_take(&pool, room, sizeof room).status == EP_COMPLETED, "it isn't forgotten");
    ep_pool_add(&pool, first, sizeof first, 1, 0, &none, 0);
    ep_pool_add(&pool, last, sizeof last, 1, 0, &none, 0);
    ep_pool_add(&pool, first, sizeof first, 1, 1, &none, 0);
    ep_pool_free(&pool);
    check(!pool.is_open && ep_pool_open(&pool) == 0, "freed with a message that is kept");
    check(same(ep_pool_take(&pool, &none, 0), wrong_state), "take after it");
    ep_pool_free(&pool);
    check(ep_pool_new(&pool) == EP_DONE && ep_pool_open(&pool) == 0, "opened again, and empty");
    ep_pool_free(&pool);
}

/* So many frames: a first part each, of which every third is completed, and every third is forgotten. */
static void many(uint32_t count) {
    uint8_t room[16];
    ep_pool pool = {0};
    size_t completed = 0;
    check(ep_pool_new(&pool) == EP_DONE, "a pool for many");
    for (uint32_t i = 0; i < count; i++) {
        ep_pool_add(&pool, first, sizeof first, i % 3, i, room, 16);
        if (i % 3 == 1) completed += ep_pool_add(&pool, last, sizeof last, i, i, room, 16).status == EP_COMPLETED;
    }
    check(completed == (count + 1) / 3, "every third message is complete");
    check(ep_pool_open(&pool) == count - completed, "the others are on their way");
    ep_pool_forget_before(&pool, 1);
    check(ep_pool_open(&pool) == count / 3, "a third of them came later");
    ep_pool_free(&pool);
}

int main(int argc, char **argv) {
    FILE *table = table_of(argc, argv);
    for (enum room kind = MUCH; kind <= NONE; kind++) rows(table, kind);
    fclose(table);
    states();
    many(argc > 2 ? (uint32_t)strtoul(argv[2], NULL, 10) : 1000);
    return counted();
}
