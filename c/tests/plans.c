/* What is built of the plans of a table: c/tests/plans.txt says how its lines read. */
#include "common.h"
#include "etherparse.h"
#include "fields.h"

/* A line of the table: which call builds it, what it is given, and the bytes in which its parts are. */
struct row {
    ep_plan plan;
    ep_planned_extensions extensions;
    ep_arp arp;
    int has_extensions, is_arp;
    uint8_t *payload, *bytes;
    size_t payload_len, bytes_len;
};

#define COUNT_OF(table) (sizeof(table) / sizeof *(table))

/* A part: where it is, as @OFFSET+LENGTH, or its bytes, which are put after those of the parts before it. */
static void set_part(struct row *row, ep_part *part, const char *value) {
    if (*value == '@') {
        char *end;
        part->offset = strtoull(value + 1, &end, 10);
        part->len = strtoull(end + 1, NULL, 10);
        return;
    }
    uint8_t *bytes = block_of(value, &part->len), *joined = block(row->bytes_len + part->len);
    memcpy(joined, row->bytes, row->bytes_len);
    memcpy(joined + row->bytes_len, bytes, part->len);
    part->offset = row->bytes_len;
    row->bytes_len += part->len;
    free(row->bytes);
    free(bytes);
    row->bytes = joined;
}

/* Gives a field of a struct the value that the table has. */
static int set_in(struct row *row, void *whole, const struct field *fields, size_t count, const char *path, const char *value) {
    for (size_t i = 0; i < count; i++) {
        if (strcmp(fields[i].path, path)) continue;
        uint8_t *at = (uint8_t *)whole + fields[i].offset;
        if (fields[i].kind == 'p') {
            set_part(row, (ep_part *)at, value);
            return 1;
        }
        if (fields[i].kind == 'b') {
            size_t len;
            uint8_t *bytes = block_of(value, &len);
            if (len <= fields[i].size) memcpy(at, bytes, len);
            free(bytes);
            return len <= fields[i].size;
        }
        uint64_t number = strtoull(value, NULL, 10);
        memcpy(at, &number, fields[i].size);
        return 1;
    }
    return 0;
}

static int set(struct row *row, const char *path, const char *value) {
    if (!strncmp(path, "extensions.", 11)) {
        row->has_extensions = 1;
        return set_in(row, &row->extensions, planned_extensions_fields, COUNT_OF(planned_extensions_fields), path + 11, value);
    }
    if (!strncmp(path, "arp.", 4)) {
        row->is_arp = 1;
        return set_in(row, &row->arp, arp_fields, COUNT_OF(arp_fields), path + 4, value);
    }
    return set_in(row, &row->plan, plan_fields, COUNT_OF(plan_fields), path, value);
}

static ep_built build(const struct row *row, uint8_t *output, size_t output_len) {
    if (row->is_arp) return ep_build_arp(&row->plan, &row->arp, row->bytes, row->bytes_len, output, output_len);
    if (!row->has_extensions) return ep_build(&row->plan, row->payload, row->payload_len, output, output_len);
    return ep_build_with_extensions(&row->plan, &row->extensions, row->bytes, row->bytes_len, row->payload, row->payload_len,
                                    output, output_len);
}

/* Whether the row is built as these bytes, in a room of its length, and in none that is smaller. */
static int builds(const struct row *row, const uint8_t *frame, size_t len) {
    uint8_t *output = block(len + 2), before = 7;
    memset(output, 7, len + 2);
    ep_built none = build(row, &before, 0);
    ep_built less = build(row, output, len - 1);
    int kept = before == 7;
    for (size_t i = 0; i < len + 2; i++) kept &= output[i] == 7;
    ep_built more = build(row, output, len + 1);
    int right = none.status == EP_NO_ROOM && none.len == len && less.status == EP_NO_ROOM && less.len == len && kept &&
                more.status == EP_DONE && more.len == len && !more.field && !memcmp(output, frame, len) &&
                output[len] == 7 && output[len + 1] == 7;
    free(output);
    return right;
}

static int refuses(const struct row *row, uint32_t field) {
    uint8_t output[128] = {0}, zeros[128] = {0};
    ep_built built = build(row, output, sizeof output);
    return built.status == EP_REFUSED && built.field == field && !built.len && !memcmp(output, zeros, sizeof output);
}

/* Whether a call with no extension headers is the call without them. */
static int is_plain(const struct row *row) {
    uint8_t plain[2048], extended[2048];
    memset(plain, 7, sizeof plain);
    memset(extended, 7, sizeof extended);
    ep_built one = ep_build(&row->plan, row->payload, row->payload_len, plain, sizeof plain);
    ep_built other = ep_build_with_extensions(&row->plan, &row->extensions, row->bytes, row->bytes_len, row->payload,
                                              row->payload_len, extended, sizeof extended);
    return one.status == other.status && one.field == other.field && one.len == other.len &&
           !memcmp(plain, extended, sizeof plain);
}

/* A payload that is a byte longer than the total length can say (RFC 791, section 3.1), and the longest. */
static int lengths_are_right(void) {
    static uint8_t payload[65508], output[65536];
    struct row row = {.plan = {.ip_version = 4, .transport = 17}, .payload = payload, .payload_len = sizeof payload};
    struct row echo = {.plan = {.ip_version = 4, .transport = 58}, .payload = payload, .payload_len = sizeof payload};
    ep_built longest = ep_build(&row.plan, payload, 65507, output, sizeof output);
    int right = refuses(&row, EP_FIELD_PAYLOAD) && longest.status == EP_DONE && longest.len == 65535 &&
                refuses(&echo, EP_FIELD_PAYLOAD);
    /* 40 bytes of options, and 24 of authentication: so many fewer. */
    row.plan.ipv4_options_len = 40;
    longest = ep_build(&row.plan, payload, 65467, output, sizeof output);
    row.payload_len = 65468;
    right &= refuses(&row, EP_FIELD_PAYLOAD) && longest.status == EP_DONE && longest.len == 65535;
    row.plan.ipv4_options_len = 0;
    row.has_extensions = row.extensions.has_authentication = 1;
    row.extensions.integrity_check_value.len = row.bytes_len = 12;
    row.bytes = payload;
    row.payload_len = 65483;
    longest = build(&row, output, sizeof output);
    row.payload_len = 65484;
    return right & (refuses(&row, EP_FIELD_PAYLOAD) && longest.status == EP_DONE && longest.len == 65535);
}

int main(int argc, char **argv) {
    FILE *table = table_of(argc, argv);
    static char line[65536];
    while (fgets(line, sizeof line, table)) {
        if (*line == '#') continue;
        char *payload_hex = strtok(line, " "), *wanted = strtok(NULL, " "), *path;
        size_t len;
        struct row row = {.bytes = block(0)};
        row.payload = block_of(payload_hex, &row.payload_len);
        int right = 1;
        while ((path = strtok(NULL, " \n"))) {
            char *value = strchr(path, '=');
            *value++ = 0;
            right &= set(&row, path, value);
        }
        if (!strncmp(wanted, "refused=", 8)) {
            right &= refuses(&row, (uint32_t)atoi(wanted + 8));
        } else {
            uint8_t *frame = block_of(wanted, &len);
            right &= builds(&row, frame, len);
            free(frame);
        }
        check(right && (row.has_extensions || is_plain(&row)), wanted);
        free(row.payload);
        free(row.bytes);
    }
    fclose(table);
    check(lengths_are_right(), "the longest payload");
    return counted();
}
