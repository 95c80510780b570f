/* What is returned for the packets of a table: c/tests/packets.txt says how its lines read. */
#include "written.h"

static ep_packet packet;
static uint32_t verdict;

static int kinds_are_numbered(void) {
    int right = 1;
    for (size_t i = 0; i < COUNT(kinds); i++) right &= kinds[i].number == i;
    return right;
}

/* The value of a field as the table writes it. */
static void write_value(const char *path, char *out, size_t room) {
    if (!strcmp(path, "verdict"))
        snprintf(out, room, "%u", verdict);
    else
        write_packet_field(&packet, path, out, room);
}

static void slice(const char *call, const uint8_t *bytes, size_t len) {
    if (!strcmp(call, "ethernet")) {
        packet = ep_slice_ethernet(bytes, len);
        verdict = ep_verdict_ethernet(bytes, len);
    } else if (!strcmp(call, "linux_sll")) {
        packet = ep_slice_linux_sll(bytes, len);
        verdict = ep_verdict_linux_sll(bytes, len);
    } else {
        packet = ep_slice_ip(bytes, len);
        verdict = ep_verdict_ip(bytes, len);
    }
}

static int sums_are_right(void) {
    /* RFC 1071, section 3: the words 0001 f203 f4f5 f6f7 sum to ddf2. */
    static const uint8_t words[] = {0x00, 0x01, 0xf2, 0x03, 0xf4, 0xf5, 0xf6, 0xf7};
    static const uint8_t sealed[] = {0x00, 0x01, 0xf2, 0x03, 0xf4, 0xf5, 0xf6, 0xf7, 0x22, 0x0d};
    return ep_checksum(words, 8) == 0x220d && ep_checksum(words, 0) == 0xffff && !ep_checksum_is_right(words, 8) &&
           !ep_checksum_is_right(words, 0) && ep_checksum_is_right(sealed, 10);
}

int main(int argc, char **argv) {
    FILE *table = table_of(argc, argv);
    static char line[65536], value[256];
    while (fgets(line, sizeof line, table)) {
        if (*line == '#') continue;
        char *call = strtok(line, " "), *hex = strtok(NULL, " "), *field;
        size_t len;
        uint8_t *bytes = block_of(hex, &len);
        slice(call, bytes, len);
        int right = 1;
        while ((field = strtok(NULL, " \n"))) {
            char *wanted = strchr(field, '=');
            *wanted++ = 0;
            write_value(field, value, sizeof value);
            if (strcmp(value, wanted)) {
                printf("%s %s: %s is %s, not %s\n", call, hex, field, value, wanted);
                right = 0;
            }
        }
        free(bytes);
        check(right, "a packet");
    }
    fclose(table);
    check(kinds_are_numbered(), "the kinds of refusals are 0 to 12");
    check(sums_are_right(), "checksums");
    check(!strcmp(ep_version(), EP_VERSION), "the version");
    return counted();
}
