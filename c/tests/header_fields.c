/* What is read beyond the fields of a packet: c/tests/header_fields.txt says how its lines read. */
#include "written.h"

static char found[65536], wanted[65536];

/* Adds a line of what it is and of the fields that aren't 0. */
static void add_line(const char *what, const struct field *fields, size_t count, const void *of) {
    static const uint8_t zeros[64];
    char value[256];
    size_t at = strlen(found);
    at += (size_t)snprintf(found + at, sizeof found - at, "%s", what);
    for (size_t i = 0; i < count; i++) {
        if (!memcmp((const uint8_t *)of + fields[i].offset, zeros, fields[i].size)) continue;
        write_field(fields, count, of, fields[i].path, value, sizeof value);
        at += (size_t)snprintf(found + at, sizeof found - at, " %s=%s", fields[i].path, value);
    }
    snprintf(found + at, sizeof found - at, "\n");
}

static void add_part(const char *what, ep_part part) {
    size_t at = strlen(found);
    if (part.len) snprintf(found + at, sizeof found - at, "%s part=%zu+%zu\n", what, part.offset, part.len);
}

/* The options of a message of neighbor discovery. */
static void read_ndp_options(const uint8_t *message, size_t len) {
    ep_part options = ep_ndp_options(message, len);
    ep_ndp_option option;
    add_part("ndp_options", options);
    while ((option = ep_ndp_option_next(message, len, &options)).kind)
        add_line("ndp_option", ndp_option_fields, COUNT(ndp_option_fields), &option);
    check(!options.len && !ep_ndp_option_next(message, len, &options).kind, "after the last option come no others");
}

/* A message of a multicast group, and its records. */
static void read_group(const char *what, const uint8_t *message, size_t len, ep_group_message group) {
    ep_group_records records = group.records;
    ep_group_record record;
    if (group.kind) add_line(what, group_message_fields, COUNT(group_message_fields), &group);
    while ((record = ep_group_record_next(message, len, &records)).kind)
        add_line("group_record", group_record_fields, COUNT(group_record_fields), &record);
    check(!records.count && !ep_group_record_next(message, len, &records).kind, "after the last record come no others");
}

static void read_fields(const uint8_t *frame, size_t len) {
    const ep_packet packet = ep_slice_ethernet(frame, len);
    const uint8_t *message = frame + packet.icmp.header.offset;
    size_t message_len = packet.icmp.header.len + packet.icmp.payload.len;
    ep_part options = ep_tcp_options(&packet);
    ep_tcp_option option;
    ep_extensions extensions = ep_ip_extensions(&packet);
    ep_extension extension;
    add_part("ipv4_options", ep_ipv4_options(&packet));
    add_part("tcp_options", options);
    while ((option = ep_tcp_option_next(frame, len, &options)).kind)
        add_line("tcp_option", tcp_option_fields, COUNT(tcp_option_fields), &option);
    check(!options.len && !ep_tcp_option_next(frame, len, &options).kind, "after the last option come no others");
    while ((extension = ep_extension_next(frame, len, &extensions)).layer)
        add_line("extension", extension_fields, COUNT(extension_fields), &extension);
    check(!extensions.left.len && !ep_extension_next(frame, len, &extensions).layer, "after the last header come no others");
    if (packet.transport == 1 || packet.transport == 58) {
        ep_icmp_fields fields =
            packet.transport == 1 ? ep_icmpv4_fields(message, message_len) : ep_icmpv6_fields(message, message_len);
        add_line("icmp", icmp_fields, COUNT(icmp_fields), &fields);
    }
    if (packet.transport == 58) {
        ep_ndp ndp = ep_ndp_message(message, message_len);
        if (ndp.icmp_type) add_line("ndp", ndp_fields, COUNT(ndp_fields), &ndp);
        read_ndp_options(message, message_len);
        read_group("mld", message, message_len, ep_mld_message(message, message_len));
    }
    if (packet.net == 4 && packet.ipv4.payload_number == 2 && !packet.ipv4.is_part) {
        message = frame + packet.ipv4.payload.offset;
        message_len = packet.ipv4.payload.len;
        read_group("igmp", message, message_len, ep_igmp_message(message, message_len));
    }
}

/* Parts that the bytes don't have, or not whole. */
static int parts_beyond_are_cut(void) {
    static const uint8_t bytes[] = {1, 3, 3, 7};
    ep_part beyond = {4, 4}, far = {SIZE_MAX, SIZE_MAX}, longer = {1, SIZE_MAX};
    ep_extensions headers = {{0, SIZE_MAX}, 44}, none = {{SIZE_MAX, 8}, 0};
    ep_packet packet = {.tcp = {.header = {SIZE_MAX - 19, 24}}};
    int right = !ep_tcp_option_next(bytes, 4, &beyond).kind && beyond.offset == 4;
    right &= !ep_tcp_option_next(bytes, 4, &far).kind && far.offset == SIZE_MAX;
    right &= ep_tcp_option_next(bytes, 4, &longer).window_scale == 7 && longer.offset == 4;
    right &= !ep_tcp_option_next(bytes, 4, &longer).kind && longer.offset == 4;
    right &= !ep_extension_next(bytes, 4, &headers).layer && headers.left.offset == 0 && headers.next_header == 44;
    right &= !ep_extension_next(bytes, 4, &none).layer;
    right &= !ep_tcp_options(&packet).len && !ep_ip_extensions(&packet).left.len;
    return right;
}

/* The same of options of neighbor discovery and of records. */
static int parts_of_messages_beyond_are_cut(void) {
    static const uint8_t mtu[] = {5, 1, 0, 0, 0, 0, 5, 220}, group[] = {4, 0, 0, 0, 239, 1, 2, 3};
    ep_part beyond = {8, 8}, far = {SIZE_MAX, SIZE_MAX}, longer = {0, SIZE_MAX}, shorter = {0, 7};
    ep_group_records records = {{0, SIZE_MAX}, 2, false}, none = {{0, 8}, 0, false};
    ep_group_records far_ones = {{SIZE_MAX, 20}, UINT32_MAX, true};
    int right = !ep_ndp_option_next(mtu, 8, &beyond).kind && beyond.offset == 8;
    right &= !ep_ndp_option_next(mtu, 8, &far).kind && far.offset == SIZE_MAX;
    right &= ep_ndp_option_next(mtu, 8, &longer).mtu == 1500 && longer.offset == 8;
    right &= !ep_ndp_option_next(mtu, 8, &longer).kind && longer.offset == 8;
    right &= ep_ndp_option_next(mtu, 8, &shorter).there == 7 && shorter.offset == 7 && !shorter.len;
    right &= ep_group_record_next(group, 8, &records).record_type == 4 && records.left.offset == 8 && records.count == 1;
    right &= ep_group_record_next(group, 8, &records).needed == 8 && records.left.offset == 8 && !records.count;
    right &= ep_group_record_next(group, 8, &far_ones).needed == 20 && far_ones.left.offset == SIZE_MAX && !far_ones.count;
    right &= !ep_group_record_next(group, 8, &none).kind && none.left.len == 8;
    right &= !ep_ndp_options(mtu, 8).len && !ep_ndp_options(mtu, 0).len && !ep_mld_message(group, 8).kind;
    return right;
}

int main(int argc, char **argv) {
    FILE *table = table_of(argc, argv);
    static char line[65536];
    char *is_there = fgets(line, sizeof line, table);
    while (is_there) {
        if (strncmp(line, "ethernet ", 9)) {
            is_there = fgets(line, sizeof line, table);
            continue;
        }
        size_t len;
        line[strcspn(line, "\n")] = 0;
        uint8_t *frame = block_of(line + 9, &len);
        *found = *wanted = 0;
        read_fields(frame, len);
        free(frame);
        while ((is_there = fgets(line, sizeof line, table)) && *line != '#') strcat(wanted, line);
        if (strcmp(found, wanted)) printf("found:\n%swanted:\n%s", found, wanted);
        check(!strcmp(found, wanted), "the fields of headers");
    }
    fclose(table);
    check(parts_beyond_are_cut(), "parts that the bytes don't have");
    check(parts_of_messages_beyond_are_cut(), "parts that the messages don't have");
    return counted();
}
