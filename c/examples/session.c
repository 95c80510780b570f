/* Answers the lines of standard input chunk by chunk, of as many bytes as its argument says. */
#include "netlines.h"
#include <stdio.h>
#include <stdlib.h>

int main(int argc, char **argv) {
    size_t size = argc > 1 ? strtoul(argv[1], NULL, 10) : 65536, room = 1, count, written;
    uint8_t *chunk = calloc(1, size), *output = calloc(1, room);
    netlines_session session = {0};
    if (!chunk || !output || netlines_open(&session) != NETLINES_ANSWERED) return 1;
    uint32_t status;
    do {
        count = fread(chunk, 1, size, stdin);
        written = 0;
        status = count ? netlines_feed(&session, chunk, count, output, room, &written)
                       : netlines_finish(&session, output, room, &written);
        if (status == NETLINES_NO_ROOM) {
            room = written;
            free(output);
            if (!(output = calloc(1, room))) return 1;
            status = count ? netlines_feed(&session, chunk, 0, output, room, &written)
                           : netlines_finish(&session, output, room, &written);
        }
        if (status == NETLINES_ANSWERED) fwrite(output, 1, written, stdout);
    } while (count && status == NETLINES_ANSWERED);
    netlines_close(&session);
    free(chunk);
    free(output);
    return status != NETLINES_ANSWERED;
}
