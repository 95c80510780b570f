/* UDP from port 1 to port 2 over IPv4, 10.0.0.1 to 10.0.0.2, identification 7, cut at byte 8. */
static const uint8_t first[] = {2, 0, 0, 0, 0, 2, 2,    0,    0, 0, 0, 1, 8, 0, 0x45, 0, 0, 0x1c, 0, 7, 0x20,
                                0, 64, 17, 0x46, 0xc8, 10, 0, 0, 1, 10, 0, 0, 2, 0,    1, 0, 2,    0, 16, 0xdb, 0xb4};
static const uint8_t last[] = {2,    0,    0,    0,    0,    2, 2, 0, 0, 0, 0,  1, 8, 0, 0x45, 0, 0, 0x1c, 0, 7, 0,
                               1, 64, 17, 0x66, 0xc7, 10, 0, 0, 1, 10, 0, 0, 2, 1,    2, 3, 4,    5, 6, 7, 8};
