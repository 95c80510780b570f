/* What streams make of segments, the keys of packets, and the states of connections, by a table, c/tests/streams.txt, which says
   how its lines read. The states of a stream, and streams of many segments. */
#include "common.h"
#include "etherparse.h"

/* The calls that give keys, by their names in the table. */
static const struct {
    const char *name;
    ep_packet_key (*key)(const uint8_t *, size_t, uint32_t);
} calls[] = {
    {"ethernet", ep_flow_key_ethernet},
    {"linux_sll", ep_flow_key_linux_sll},
    {"ip", ep_flow_key_ip},
};

static const char *word(void) { return strtok(NULL, " \n"); }

static uint64_t number(void) { return strtoull(word(), NULL, 10); }

static ep_segment_flags flags_of(const char *letters) {
    const ep_segment_flags flags = {.syn = strchr(letters, 'S') != NULL,
                                    .ack = strchr(letters, 'A') != NULL,
                                    .fin = strchr(letters, 'F') != NULL,
                                    .rst = strchr(letters, 'R') != NULL};
    return flags;
}

/* Conflicts as the table writes them. */
static ep_conflicts conflicts_of(const char *text) {
    ep_conflicts conflicts = {0};
    if (strcmp(text, "-")) {
        char *end;
        conflicts.count = strtoull(text, &end, 10);
        conflicts.first = strtoull(end + 1, NULL, 10);
    }
    return conflicts;
}

static int same_conflicts(ep_conflicts a, ep_conflicts b) { return a.count == b.count && a.first == b.first; }

static int same_added(ep_stream_added a, ep_stream_added b) {
    return a.status == b.status && a.refusal == b.refusal && a.refused_at == b.refused_at && a.position == b.position &&
           same_conflicts(a.conflicts, b.conflicts);
}

static int same_progress(ep_stream_progress a, ep_stream_progress b) {
    return a.available == b.available && a.consumed == b.consumed && a.gap.start == b.gap.start && a.gap.end == b.gap.end &&
           same_conflicts(a.conflicts, b.conflicts) && a.is_finished == b.is_finished && a.is_reset == b.is_reset &&
           a.joined_late == b.joined_late;
}

static int adds(ep_stream *stream) {
    const uint32_t sequence_number = (uint32_t)number();
    const ep_segment_flags flags = flags_of(word());
    size_t len;
    uint8_t *payload = block_of(word(), &len);
    ep_stream_added wanted = {0};
    if (!strcmp(word(), "refused")) {
        wanted.status = EP_REFUSED;
        wanted.refusal = (uint32_t)number();
        wanted.refused_at = number();
    } else {
        wanted.position = number();
        wanted.conflicts = conflicts_of(word());
    }
    const ep_stream_progress before = ep_stream_progress_of(stream);
    const int right = same_added(ep_stream_add(stream, sequence_number, &flags, payload, len), wanted);
    free(payload);
    return right && (!wanted.status || same_progress(ep_stream_progress_of(stream), before));
}

static int reads(ep_stream *stream) {
    const size_t size = number();
    size_t len;
    uint8_t *wanted = block_of(word(), &len), *output = block(size);
    memset(output, 7, size);
    int right = ep_stream_read(stream, output, size) == len && !memcmp(output, wanted, len);
    for (size_t i = len; i < size; i++) right &= output[i] == 7;
    free(wanted);
    free(output);
    return right;
}

static int came(ep_stream *stream) {
    ep_stream_progress wanted = {.available = number(), .consumed = number()};
    const char *gap = word();
    if (strcmp(gap, "-")) {
        char *end;
        wanted.gap.start = strtoull(gap, &end, 10);
        wanted.gap.end = strtoull(end + 1, NULL, 10);
    }
    wanted.conflicts = conflicts_of(word());
    const char *said = word();
    wanted.is_finished = strchr(said, 'f') != NULL;
    wanted.is_reset = strchr(said, 'r') != NULL;
    wanted.joined_late = strchr(said, 'l') != NULL;
    return same_progress(ep_stream_progress_of(stream), wanted);
}

static void read_endpoint(const char *hex, ep_endpoint *endpoint) {
    size_t len;
    uint8_t *bytes = block_of(hex, &len);
    endpoint->version = len == 4 ? 4 : 6;
    memcpy(endpoint->address, bytes, len);
    endpoint->port = (uint16_t)number();
    free(bytes);
}

static int has_key(void) {
    const char *name = word();
    const uint32_t channel = (uint32_t)number();
    size_t len, call = 0;
    while (strcmp(calls[call].name, name)) call++;
    uint8_t *frame = block_of(word(), &len);
    const ep_packet_key found = calls[call].key(frame, len, channel);
    free(frame);
    const char *answer = word();
    ep_packet_key wanted = {0};
    if (!strcmp(answer, "none")) {
        wanted.status = EP_NO_SEGMENT;
    } else if (!strcmp(answer, "refused")) {
        wanted.status = EP_REFUSED;
    } else {
        wanted.direction = (uint32_t)strtoul(answer, NULL, 10);
        read_endpoint(word(), &wanted.key.lower);
        read_endpoint(word(), &wanted.key.higher);
        wanted.key.channel = (uint32_t)number();
        for (char *ids = strtok(NULL, " \n"); ids && *ids != '-'; ids = *ids ? ids + 1 : NULL)
            wanted.key.vlan_ids[wanted.key.vlan_count++] = (uint16_t)strtoul(ids, &ids, 10);
    }
    /* A key is the same where its bytes are. */
    return found.status == wanted.status && found.direction == wanted.direction &&
           !memcmp(&found.key, &wanted.key, sizeof found.key);
}

static int goes_on(ep_connection_state *state) {
    const uint32_t direction = (uint32_t)number();
    const ep_segment_flags flags = flags_of(word());
    *state = ep_connection_state_after(state, direction, &flags);
    const uint32_t wanted = (uint32_t)number();
    return state->state == wanted && state->direction == number();
}

static void rows(FILE *table) {
    static char line[65536], shown[65536];
    ep_stream stream = {0};
    ep_connection_state state = {0};
    while (fgets(line, sizeof line, table)) {
        memcpy(shown, line, sizeof shown);
        const char *call = strtok(line, " \n");
        if (!strcmp(call, "stream")) {
            ep_stream_free(&stream);
            check(ep_stream_new(&stream, number()) == EP_DONE, "a new stream");
        } else if (!strcmp(call, "add")) {
            check(adds(&stream), shown);
        } else if (!strcmp(call, "read")) {
            check(reads(&stream), shown);
        } else if (!strcmp(call, "progress")) {
            check(came(&stream), shown);
        } else if (!strcmp(call, "key")) {
            check(has_key(), shown);
        } else if (!strcmp(call, "connection")) {
            state = (ep_connection_state){0};
        } else if (!strcmp(call, "segment")) {
            check(goes_on(&state), shown);
        } else if (*call != '#') {
            exit(2);
        }
    }
    ep_stream_free(&stream);
}

static void states(void) {
    const ep_segment_flags flags = {.ack = true};
    const ep_stream_added wrong_state = {.status = EP_WRONG_STATE};
    const ep_stream_progress nothing = {0};
    const uint8_t byte = 9;
    uint8_t output = 7;
    ep_stream stream = {0};
    check(same_added(ep_stream_add(&stream, 1, &flags, &byte, 1), wrong_state), "add before new");
    check(ep_stream_read(&stream, &output, 1) == 0 && output == 7, "read before new");
    check(same_progress(ep_stream_progress_of(&stream), nothing), "progress before new");
    check(!stream.is_open && !stream.held, "nothing is changed");
    ep_stream_free(&stream);
    check(ep_stream_new(&stream, SIZE_MAX) == EP_DONE && stream.is_open, "new");
    check(ep_stream_add(&stream, 1, &flags, &byte, 1).status == EP_DONE, "a segment");
    check(ep_stream_new(&stream, 1) == EP_WRONG_STATE && ep_stream_progress_of(&stream).available == 1,
          "new twice, and nothing is changed");
    ep_stream_free(&stream);
    check(!stream.is_open && ep_stream_read(&stream, &output, 1) == 0 && output == 7, "freed with a byte");
    check(same_added(ep_stream_add(&stream, 1, &flags, &byte, 1), wrong_state), "add after it");
    ep_stream_free(&stream);
    check(ep_stream_new(&stream, 1) == EP_DONE && same_progress(ep_stream_progress_of(&stream), nothing),
          "opened again, and empty");
    ep_stream_free(&stream);
}

/* A state that no call returns is that of a connection without segments, and a direction that is none that from the lower
   endpoint. */
static void other_numbers(void) {
    const ep_segment_flags syn = {.syn = true};
    const ep_connection_state unknown = {.state = 7, .direction = 9};
    const ep_connection_state opened = ep_connection_state_after(&unknown, 9, &syn);
    check(opened.state == EP_STATE_SYN_SENT && opened.direction == EP_FROM_LOWER, "numbers that name nothing");
}

/* So many segments of three bytes, each pair of them in the other order, around number 0. */
static void many(uint32_t count) {
    const ep_segment_flags flags = {.ack = true}, syn = {.syn = true};
    const uint32_t start = 0u - count;
    ep_stream stream = {0};
    check(ep_stream_new(&stream, 6) == EP_DONE && ep_stream_add(&stream, start - 1, &syn, (const uint8_t *)"", 0).status == EP_DONE,
          "a stream for many");
    int right = 1;
    for (uint32_t i = 0; i < count; i++) {
        const uint32_t turned = i ^ 1;
        const uint8_t bytes[3] = {(uint8_t)turned, (uint8_t)(turned >> 8), 5};
        right &= ep_stream_add(&stream, start + 3 * turned, &flags, bytes, 3).status == EP_DONE;
        uint8_t output[6];
        if (i % 2) right &= ep_stream_read(&stream, output, 6) == 6 && output[0] == (uint8_t)(i - 1) && output[3] == (uint8_t)i;
    }
    const ep_stream_progress progress = ep_stream_progress_of(&stream);
    check(right, "many segments, in pairs");
    check(progress.consumed == 3 * (uint64_t)count && !progress.available && !progress.conflicts.count, "all bytes came");
    ep_stream_free(&stream);
}

int main(int argc, char **argv) {
    FILE *table = table_of(argc, argv);
    rows(table);
    fclose(table);
    states();
    other_numbers();
    many(1000000);
    return counted();
}
