/* The states of a session, rooms of length 0, and what its calls leave as it was. */
#include "common.h"
#include "netlines.h"

int main(void) {
    static const char bad[] = "bad line\n";
    uint8_t room[64] = {0}, none = 7;
    size_t written = 5;
    netlines_session s = {0};
    check(netlines_feed(&s, room, 0, &none, 0, &written) == NETLINES_WRONG_STATE, "feed before open");
    check(netlines_finish(&s, &none, 0, &written) == NETLINES_WRONG_STATE, "finish before open");
    check(written == 5 && !s.is_open && !s.held, "nothing is changed");
    netlines_close(&s);
    check(netlines_open(&s) == NETLINES_ANSWERED && s.is_open, "open");
    check(netlines_open(&s) == NETLINES_WRONG_STATE && s.is_open, "open twice");
    check(netlines_feed(&s, (const uint8_t *)"?", 1, &none, 0, &written) == NETLINES_ANSWERED && !written, "no line");
    check(netlines_feed(&s, (const uint8_t *)"\n?", 2, &none, 0, &written) == NETLINES_NO_ROOM, "room of length 0");
    check(written == 9 && none == 7, "the room that is needed");
    check(netlines_feed(&s, room, 0, &none, 0, &written) == NETLINES_NO_ROOM && written == 9, "kept once more");
    check(netlines_feed(&s, room, 0, room, 9, &written) == NETLINES_ANSWERED && written == 9, "handed out later");
    check(!memcmp(room, bad, 9), "the answer");
    check(netlines_feed(&s, room, 0, room, 64, &written) == NETLINES_ANSWERED && !written, "handed out once");
    check(netlines_finish(&s, room, 8, &written) == NETLINES_NO_ROOM && written == 9, "a last line without room");
    memset(room, 0, sizeof room);
    check(netlines_feed(&s, room, 1, room + 32, 9, &written) == NETLINES_WRONG_STATE, "feed after the end");
    check(netlines_finish(&s, room, 9, &written) == NETLINES_ANSWERED && !memcmp(room, bad, 9), "the last answer");
    check(netlines_finish(&s, &none, 0, &written) == NETLINES_ANSWERED && !written, "the end again");
    netlines_close(&s);
    check(!s.is_open, "closed");
    netlines_close(&s);
    for (int i = 0; i < 1000; i++) {
        netlines_session one = {0};
        if (netlines_open(&one) != NETLINES_ANSWERED) return 1;
        netlines_feed(&one, (const uint8_t *)"\n", 1, &none, 0, &written);
        netlines_close(&one);
    }
    return counted();
}
