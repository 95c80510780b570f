/* The packets of captures, passed at once and in chunks, and what is written of them, by a table, c/tests/captures.txt, which says
   how its lines read. The states of a capture. */
#include "common.h"
#include "etherparse.h"

/* A capture whose bytes are passed in chunks. */
static struct {
    ep_capture capture;
    uint8_t *bytes;
    size_t len, start, end, chunk;
} file;

static const char *word(void) { return strtok(NULL, " \n"); }

static uint64_t number(void) { return strtoull(word(), NULL, 10); }

static int opens(const char *hex, int skips, size_t chunk) {
    ep_capture_free(&file.capture);
    free(file.bytes);
    memset(&file, 0, sizeof file);
    file.bytes = block_of(hex, &file.len);
    file.chunk = chunk;
    return ep_capture_new(&file.capture, skips) == EP_DONE && file.capture.is_open;
}

/* What is next: the bytes that aren't done with are passed, and a chunk more as long as that is wanted. They are copied, so that a
   sanitizer sees a step beyond them. */
static ep_captured next(uint8_t **held) {
    for (;;) {
        const size_t len = file.end - file.start;
        *held = block(len);
        memcpy(*held, file.bytes + file.start, len);
        const ep_captured found = ep_capture_next(&file.capture, *held, len);
        file.start += found.done;
        if (found.status != EP_MORE_BYTES || file.end == file.len) return found;
        free(*held);
        file.end = file.len - file.end < file.chunk ? file.len : file.end + file.chunk;
    }
}

static int same_error(ep_capture_error a, ep_capture_error b) {
    return a.kind == b.kind && a.value == b.value && a.minor == b.minor && a.block_type == b.block_type && a.packet == b.packet &&
           a.offset == b.offset;
}

static int gives(uint64_t packet, uint64_t time, uint32_t wire_len, uint32_t link, uint32_t interface, const char *hex) {
    uint8_t *held;
    const ep_captured found = next(&held);
    const ep_captured_packet *p = &found.packet;
    size_t len;
    uint8_t *frame = block_of(hex, &len);
    const int right = found.status == EP_DONE && p->number == packet && p->time == time && p->wire_len == wire_len &&
                      p->link == link && p->interface_number == interface && p->header_len + p->bytes.len == len &&
                      !memcmp(frame, p->header, p->header_len) &&
                      !memcmp(frame + p->header_len, held + p->bytes.offset, p->bytes.len) && !found.error.kind;
    free(frame);
    free(held);
    return right;
}

static int ends(ep_capture_error wanted) {
    uint8_t *held;
    const ep_captured found = next(&held);
    const ep_capture_ending ending = ep_capture_end(&file.capture, held + found.done, file.end - file.start);
    free(held);
    const uint32_t status = wanted.kind ? EP_REFUSED : EP_DONE;
    if (found.status == EP_MORE_BYTES) return ending.status == status && same_error(ending.error, wanted);
    /* A refusal stays. */
    return found.status == EP_REFUSED && same_error(found.error, wanted) && ending.status == EP_REFUSED &&
           same_error(ending.error, wanted);
}

static int same_bytes(const char *hex, const uint8_t *bytes, size_t size) {
    size_t len;
    uint8_t *wanted = block_of(hex, &len);
    const int right = len == size && !memcmp(wanted, bytes, len);
    free(wanted);
    return right;
}

static int line_is_right(const char *call, size_t chunk) {
    if (!strcmp(call, "capture")) {
        const int skips = (int)number();
        return opens(word(), skips, chunk);
    }
    if (!strcmp(call, "packet")) {
        const uint64_t packet = number(), time = number();
        const uint32_t wire_len = (uint32_t)number(), link = (uint32_t)number(), interface = (uint32_t)number();
        return gives(packet, time, wire_len, link, interface, word());
    }
    if (!strcmp(call, "header")) {
        const ep_file_header header = ep_capture_file_header(number() != 0);
        return same_bytes(word(), header.bytes, sizeof header.bytes);
    }
    if (!strcmp(call, "record")) {
        const uint32_t seconds = (uint32_t)number(), fraction = (uint32_t)number(), len = (uint32_t)number();
        const ep_record_head head = ep_capture_record_head(seconds, fraction, len, (uint32_t)number());
        return same_bytes(word(), head.bytes, sizeof head.bytes);
    }
    ep_capture_error wanted = {0};
    if (!strcmp(call, "refused")) {
        wanted.kind = (uint32_t)number();
        wanted.value = (uint32_t)number();
        wanted.minor = (uint32_t)number();
        wanted.packet = number();
        wanted.offset = number();
        wanted.block_type = (uint32_t)number();
    }
    return ends(wanted);
}

static void states(void) {
    ep_capture capture = {0};
    const uint8_t byte = 0;
    check(ep_capture_next(&capture, &byte, 1).status == EP_WRONG_STATE, "next before it is open");
    check(ep_capture_end(&capture, &byte, 1).status == EP_WRONG_STATE, "end before it is open");
    ep_capture_free(&capture);
    check(!capture.is_open, "free before it is open");
    check(ep_capture_new(&capture, false) == EP_DONE, "open");
    check(ep_capture_new(&capture, false) == EP_WRONG_STATE, "open twice");
    ep_capture_free(&capture);
    check(!capture.is_open, "free");
}

int main(int argc, char **argv) {
    static char line[1 << 16], text[1 << 16];
    const size_t chunks[] = {1, 7, 1 << 16};
    for (size_t i = 0; i < sizeof chunks / sizeof *chunks; i++) {
        FILE *table = table_of(argc, argv);
        while (fgets(line, sizeof line, table)) {
            if (*line == '#') continue;
            strcpy(text, line);
            const char *call = strtok(text, " \n");
            check(line_is_right(call, chunks[i]), line);
        }
        fclose(table);
    }
    ep_capture_free(&file.capture);
    free(file.bytes);
    states();
    return counted();
}
