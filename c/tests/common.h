/* What the tests share: their count, and bytes of hex digits. */
#include <stdint.h>
#include <stdio.h>
#include <stdlib.h>
#include <string.h>

static int passed, failed;

static inline void check(int right, const char *what) {
    if (right) {
        passed++;
    } else {
        failed++;
        printf("FAILED: %s\n", what);
    }
}

/* Prints how many checks passed, and returns the program's status. */
static inline int counted(void) {
    printf("%d passed, %d failed\n", passed, failed);
    return failed != 0;
}

/* Memory of this length at the end of a block, so that a sanitizer sees a step beyond it. */
static inline uint8_t *block(size_t len) {
    uint8_t *bytes = malloc(len ? len : 1);
    if (!bytes) exit(2);
    return bytes;
}

/* Hex digits as bytes in such a block, a '-' as none. */
static inline uint8_t *block_of(const char *hex, size_t *len) {
    *len = strcmp(hex, "-") ? strlen(hex) / 2 : 0;
    uint8_t *bytes = block(*len);
    for (size_t i = 0; i < *len; i++) {
        unsigned byte;
        sscanf(hex + 2 * i, "%2x", &byte);
        bytes[i] = (uint8_t)byte;
    }
    return bytes;
}

/* The table that a program is given. */
static inline FILE *table_of(int argc, char **argv) {
    FILE *table = argc > 1 ? fopen(argv[1], "r") : NULL;
    if (!table) exit(2);
    return table;
}
