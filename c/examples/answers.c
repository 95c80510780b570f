/* Answers the lines of standard input: a first call says how much room the answers need, the next one has it. */
#include "netlines.h"
#include <stdio.h>
#include <stdlib.h>

int main(void) {
    size_t capacity = 65536, len = 0, count, room = 1, written = 0;
    uint8_t *text = malloc(capacity), *output = calloc(1, room);
    while (text && (count = fread(text + len, 1, capacity - len, stdin)) > 0) {
        len += count;
        if (len == capacity) text = realloc(text, capacity *= 2);
    }
    if (!text || !output) return 1;
    uint32_t status = netlines_answers(text, len, output, room, &written);
    if (status == NETLINES_NO_ROOM) {
        room = written;
        free(output);
        if (!(output = calloc(1, room))) return 1;
        status = netlines_answers(text, len, output, room, &written);
    }
    if (status == NETLINES_ANSWERED) fwrite(output, 1, written, stdout);
    free(text);
    free(output);
    return status != NETLINES_ANSWERED;
}
