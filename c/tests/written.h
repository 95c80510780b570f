/* The fields of structs as the tables of packets write them. */
#include "common.h"
#include "etherparse.h"
#include "fields.h"

#define KIND(name) {#name, EP_REFUSAL_##name}
#define COUNT(array) (sizeof(array) / sizeof *(array))

/* The kinds of refusals, from 0 on. */
static const struct {
    const char *name;
    uint32_t number;
} kinds[] = {
    KIND(NONE),
    KIND(TOO_FEW_BYTES),
    KIND(LINUX_SLL_PACKET_TYPE),
    KIND(LINUX_SLL_HARDWARE_TYPE),
    KIND(MACSEC_VERSION),
    KIND(MACSEC_SHORT_LEN),
    KIND(IP_VERSION),
    KIND(IPV4_VERSION),
    KIND(IPV4_HEADER_LEN),
    KIND(IPV6_VERSION),
    KIND(AUTH_HEADER_LEN),
    KIND(HOP_BY_HOP_NOT_AT_START),
    KIND(TCP_DATA_OFFSET),
};

static inline const char *kind_of(ep_refusal refusal) {
    for (size_t i = 0; i < COUNT(kinds); i++)
        if (kinds[i].number == refusal.kind) return kinds[i].name;
    return "no such kind";
}

/* The field of this path, of a struct with these fields. */
static inline void write_field(const struct field *fields, size_t count, const void *of, const char *path, char *out,
                               size_t room) {
    for (size_t i = 0; i < count; i++) {
        if (strcmp(fields[i].path, path)) continue;
        const uint8_t *at = (const uint8_t *)of + fields[i].offset;
        if (fields[i].kind == 'p') {
            ep_part part;
            memcpy(&part, at, sizeof part);
            snprintf(out, room, "%zu+%zu", part.offset, part.len);
        } else if (fields[i].kind == 'b') {
            for (size_t k = 0; k < fields[i].size; k++) snprintf(out + 2 * k, room - 2 * k, "%02x", at[k]);
        } else {
            uint64_t number = 0;
            memcpy(&number, at, fields[i].size);
            snprintf(out, room, "%llu", (unsigned long long)number);
        }
        return;
    }
    snprintf(out, room, "no such field");
}

/* A field of a packet. */
static inline void write_packet_field(const ep_packet *packet, const char *path, char *out, size_t room) {
    if (!strcmp(path, "refusal.kind"))
        snprintf(out, room, "%s", kind_of(packet->refusal));
    else
        write_field(packet_fields, COUNT(packet_fields), packet, path, out, room);
}
