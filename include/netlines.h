/* Lines of hex frames, answered by proved code. Written by tools/bindings.
   What a caller owes:
   - no pointer is null, also where the length after it is 0, and each points to as many bytes or
     structs as that length says, at most PTRDIFF_MAX bytes of memory that was written before;
   - nobody writes during a call what it reads, nor reads or writes what it writes; what it writes
     overlaps nothing else that is passed.
   No call keeps a pointer, blocks or ends the process.
   Calls may call malloc, realloc and free, which come from one allocator and align blocks as
   usual. None is made in a signal handler, nor in the forked child of a process with threads.
   A session begins as zeros, which is not open, and only these calls change it. It isn't copied. Any
   thread may use it, if each call to it begins after the one before has returned. */
#ifndef NETLINES_H
#define NETLINES_H
#include <stdbool.h>
#include <stddef.h>
#include <stdint.h>
#ifdef __cplusplus
extern "C" {
#endif

/* The answers are written. */
#define NETLINES_ANSWERED 0
/* The output is too short for the answers. */
#define NETLINES_NO_ROOM 1
/* Out of memory. */
#define NETLINES_NO_MEMORY 2
/* The session isn't open, or its text has ended, or it is open already. */
#define NETLINES_WRONG_STATE 3

/* Lines that come in chunks. It starts as zeros, and is changed by these calls alone. */
typedef struct {
    /* Whether it was opened and not closed. */
    bool is_open;
    /* Used by these calls alone. */
    void *held;
} netlines_session;

/* Answers all lines of a text, each by a line. The result is 0 where they are answered: then
   `written` bytes at the start of the output are the answers, and the bytes after them are as
   they were. It is 1 where the output is too short: then `written` is the length that they need,
   and the output is as it was. It is 2 where it is out of memory, and nothing is changed. */
uint32_t netlines_answers(const uint8_t *text, size_t text_len, uint8_t *output, size_t output_len, size_t *written);

/* Opens a session that took no byte. The result is 0 where it is open, 2 where there is no
   memory, and 3 where it was open before. Where it isn't 0 nothing is changed. */
uint32_t netlines_open(netlines_session *session);

/* Takes a chunk of the text, of any length, and answers each line that ends in it. The result is
   0 where the answers to all lines that have ended are written: then `written` bytes at the
   start of the output are those that no call has written before. It is 1 where the output is too
   short for them: then `written` is the length that they need, the output is as it was, and a
   later call writes them, which may have an empty chunk. It is 2 where it is out of memory: then
   the session is closed, and the output is as it was. It is 3 where the session isn't open or
   its text has ended: then nothing is changed. */
uint32_t netlines_feed(netlines_session *session, const uint8_t *chunk, size_t chunk_len, uint8_t *output, size_t output_len, size_t *written);

/* Ends the text of a session: a last line that no 0a ended is answered. The result is 0, 1 and 2
   as that of `netlines_feed`, and 3 where the session isn't open: then nothing is changed. After
   1 it is called again, with a longer output. With 0 the answers to the whole text are written;
   called once more, it is 0, and `written` is 0. */
uint32_t netlines_finish(netlines_session *session, uint8_t *output, size_t output_len, size_t *written);

/* Closes a session, and frees all that it holds. One that isn't open stays as it is. */
void netlines_close(netlines_session *session);

#ifdef __cplusplus
}
#endif
#endif
