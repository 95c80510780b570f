/* Prints the number and the length on the wire of each packet of a capture file, pcap or pcapng, and its ports if it is one of TCP
   or UDP: captures FILE. */
#include "etherparse.h"
#include <inttypes.h>
#include <stdio.h>
#include <string.h>

/* As many bytes as a packet may need, of which those up to `len` are there. */
static uint8_t bytes[262144];
static size_t len;

/* Of another link than Ethernet there is what follows its header, mostly an IP packet. */
static void print_packet(const ep_captured_packet *found, const uint8_t *frame) {
    const size_t frame_len = found->bytes.len;
    const ep_packet packet = found->header_len ? ep_slice_ip(frame, frame_len) : ep_slice_ethernet(frame, frame_len);
    printf("%" PRIu64 " %" PRIu32, found->number, found->wire_len);
    if (packet.transport == 6) printf(" tcp %u %u", packet.tcp.source_port, packet.tcp.destination_port);
    if (packet.transport == 17) printf(" udp %u %u", packet.udp.source_port, packet.udp.destination_port);
    putchar('\n');
}

/* Prints the packets, and returns how the capture ends. */
static ep_capture_ending read_packets(ep_capture *capture, FILE *file) {
    size_t start = 0, count;
    for (;;) {
        const ep_captured found = ep_capture_next(capture, bytes + start, len - start);
        if (found.status == EP_DONE) print_packet(&found.packet, bytes + start + found.packet.bytes.offset);
        start += found.done;
        if (found.status == EP_DONE) continue;
        /* What isn't done with goes to the start, and more after it. */
        len -= start;
        memmove(bytes, bytes + start, len);
        start = 0;
        count = found.status == EP_MORE_BYTES ? fread(bytes + len, 1, sizeof bytes - len, file) : 0;
        if (!count) return ep_capture_end(capture, bytes, len);
        len += count;
    }
}

int main(int argc, char **argv) {
    ep_capture capture = {0};
    FILE *file = argc == 2 ? fopen(argv[1], "rb") : NULL;
    if (!file || ep_capture_new(&capture, false) != EP_DONE) return 1;
    const ep_capture_ending ending = read_packets(&capture, file);
    ep_capture_free(&capture);
    fclose(file);
    if (ending.status == EP_DONE) return 0;
    fprintf(stderr, "packet %" PRIu64 ", byte %" PRIu64 ": refused, kind %" PRIu32 "\n", ending.error.packet, ending.error.offset,
            ending.error.kind);
    return 3;
}
