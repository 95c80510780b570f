/* What is returned for the first bytes of packets: c/tests/cut_packets.txt says how its lines read. */
#include "written.h"

enum { MOST_FIELDS = 64 };

static ep_lax_packet lax(const char *call, const uint8_t *bytes, size_t len) {
    if (!strcmp(call, "ethernet")) return ep_slice_ethernet_lax(bytes, len);
    if (!strcmp(call, "linux_sll")) return ep_slice_linux_sll_lax(bytes, len);
    if (!strcmp(call, "ip")) return ep_slice_ip_lax(bytes, len);
    exit(2);
}

/* The value of a field as the table writes it. */
static void write_value(const ep_lax_packet *found, const char *path, char *out, size_t room) {
    if (!strcmp(path, "stop.kind"))
        snprintf(out, room, "%s", kind_of(found->stop));
    else if (!strncmp(path, "stop", 4) || !strcmp(path, "incomplete"))
        write_field(lax_packet_fields, COUNT(lax_packet_fields), found, path, out, room);
    else
        write_packet_field(&found->packet, path, out, room);
}

/* A value of the table for the first n bytes. */
static void write_wanted(const char *value, size_t n, char *out, size_t room) {
    size_t at = 0;
    while (*value) {
        if (*value == 'n') {
            char *end = (char *)value + 1;
            size_t less = value[1] == '-' ? strtoul(value + 2, &end, 10) : 0;
            at += (size_t)snprintf(out + at, room - at, "%zu", n - less);
            value = end;
        } else {
            out[at++] = *value++;
        }
    }
    out[at] = 0;
}

/* Whether the first n bytes have these fields. */
static int are_read(const char *call, const char *hex, size_t n, char fields[][64], size_t count) {
    char found[256], wanted[256];
    size_t len;
    uint8_t *bytes = block_of(hex, &len), *first = block(n);
    if (n > len) exit(2);
    memcpy(first, bytes, n);
    ep_lax_packet packet = lax(call, first, n);
    int right = 1;
    for (size_t i = 0; i < count; i++) {
        char path[64];
        char *value = strchr(fields[i], '=') + 1;
        snprintf(path, sizeof path, "%.*s", (int)(value - 1 - fields[i]), fields[i]);
        write_value(&packet, path, found, sizeof found);
        write_wanted(value, n, wanted, sizeof wanted);
        if (strcmp(found, wanted)) {
            printf("%s %s, the first %zu bytes: %s is %s, not %s\n", call, hex, n, path, found, wanted);
            right = 0;
        }
    }
    free(first);
    free(bytes);
    return right;
}

int main(int argc, char **argv) {
    FILE *table = table_of(argc, argv);
    static char line[65536], call[16], hex[32768], fields[MOST_FIELDS][64];
    while (fgets(line, sizeof line, table)) {
        if (*line == '#') continue;
        char *first = strtok(line, " \n"), *end, *field;
        size_t n = strtoul(first, &end, 10);
        if (end == first) {
            snprintf(call, sizeof call, "%s", first);
            snprintf(hex, sizeof hex, "%s", strtok(NULL, " \n"));
            continue;
        }
        size_t last = *end == '-' ? strtoul(end + 1, NULL, 10) : n, count = 0;
        while ((field = strtok(NULL, " \n")) && count < MOST_FIELDS) snprintf(fields[count++], sizeof *fields, "%s", field);
        for (; n <= last; n++) check(are_read(call, hex, n, fields, count), "the first bytes of a packet");
    }
    fclose(table);
    return counted();
}
