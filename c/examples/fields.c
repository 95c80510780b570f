/* Prints the fields of a frame. */
#include "etherparse.h"
#include <stdio.h>

static const uint8_t frame[] = {
    2, 0, 0, 0, 0, 2, 2, 0, 0, 0, 0, 1, 8, 0, 0x45, 0, 0, 0x24, 0, 7, 0, 0, 0x40, 0x11, 0x66, 0xc0,
    10, 0, 0, 1, 10, 0, 0, 2, 0, 1, 0, 2, 0, 0x10, 0xdb, 0xb4, 1, 2, 3, 4, 5, 6, 7, 8,
};

int main(void) {
    ep_packet packet = ep_slice_ethernet(frame, sizeof frame);
    if (packet.refusal.kind) {
        printf("refused: layer %u at byte %zu\n", packet.refusal.layer, packet.refusal.place);
        return 1;
    }
    if (packet.net == 4 && packet.transport == 17) {
        const uint8_t *from = packet.ipv4.source, *to = packet.ipv4.destination;
        printf("%u.%u.%u.%u:%u to %u.%u.%u.%u:%u, %zu bytes, checksum %s\n", from[0], from[1], from[2], from[3],
               packet.udp.source_port, to[0], to[1], to[2], to[3], packet.udp.destination_port, packet.udp.payload.len,
               ep_verdict_ethernet(frame, sizeof frame) == 1 ? "right" : "wrong");
    }
    return 0;
}
