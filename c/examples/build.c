/* Builds an Ethernet II frame with a UDP datagram and prints it in hex. */
#include "etherparse.h"
#include <stdio.h>
#include <string.h>

int main(int argc, char **argv) {
    const char *text = argc > 1 ? argv[1] : "hello";
    const ep_plan plan = {
        .link = 1,
        .destination = {2, 0, 0, 0, 0, 2},
        .source = {2, 0, 0, 0, 0, 1},
        .ip_version = 4,
        .ipv4_source = {10, 0, 0, 1},
        .ipv4_destination = {10, 0, 0, 2},
        .hops = 64,
        .transport = 17,
        .source_port = 1,
        .destination_port = 2,
    };
    uint8_t frame[1514];
    const ep_built built = ep_build(&plan, (const uint8_t *)text, strlen(text), frame, sizeof frame);
    if (built.status != EP_DONE) {
        fprintf(stderr, "not built: status %u, field %u, %zu bytes\n", built.status, built.field, built.len);
        return 1;
    }
    for (size_t i = 0; i < built.len; i++) printf("%02x", frame[i]);
    putchar('\n');
    return 0;
}
