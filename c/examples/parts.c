/* Puts messages together: Ethernet II frames in hex, one a line; each message that is complete comes out in hex. A message
   of which no part came for 60 lines is given up. */
#include "etherparse.h"
#include <stdio.h>
#include <string.h>

int main(void) {
    static char line[131072];
    static uint8_t frame[65536], message[65535];
    ep_pool pool = {0};
    if (ep_pool_new(&pool) != EP_DONE) return 1;
    for (uint64_t time = 0; fgets(line, sizeof line, stdin); time++) {
        size_t len = 0;
        for (unsigned byte; len < sizeof frame && sscanf(line + 2 * len, "%2x", &byte) == 1; len++) frame[len] = (uint8_t)byte;
        const ep_added added = ep_pool_add(&pool, frame, len, time, 0, message, sizeof message);
        if (added.status == EP_COMPLETED) {
            for (size_t i = 0; i < added.message.len; i++) printf("%02x", message[i]);
            putchar('\n');
        }
        if (time >= 60) ep_pool_forget_before(&pool, time - 60);
    }
    ep_pool_free(&pool);
    return 0;
}
