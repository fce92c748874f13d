/* Zughvarti from C: the program's commands, and those of its tools, as calls from memory to memory.
 *
 * Link with -lhib, or with libhib.a; of the system they need the C library alone. `./hib library` makes both.
 *
 * What a call does. It reads the words and the input, and writes a text and a line; no file, no stream and no thread is reached. It keeps
 * nothing when it returns: each call begins with no rows, and what it allocated is given back. So calls may run side by side in threads,
 * as far as malloc, realloc and free may.
 *
 * What is handed over. Each pointer is one to as many bytes as the number behind it says. The rooms, the two lengths, the words and the
 * input don't overlap. A null pointer stands for no bytes if the number is 0; with another number it is an error of the caller's that
 * isn't noticed. `length` and `line_length` are never null. Nothing is kept of a pointer after the call.
 *
 * Memory. Beside its rooms a call takes what the run needs: 12 MB were measured for a script of 180 kB whose run has 12,394 entries, and
 * it grows with both. Where malloc answers null, the status is 8 and all that was taken is given back.
 *
 * What is proved of a call stands in crates/hib_c/src/lib.rt and crates/hib_embed/specs; that a caller keeps to this page isn't, and
 * nothing compares this page with the code but the tests. */
#ifndef HIB_H
#define HIB_H
#include <stddef.h>
#include <stdint.h>

#ifdef __cplusplus
extern "C" {
#endif

/* How a call ended: the program's exit statuses. The line says more, as `hib: line 7: no-end`. */
enum hib_status {
  HIB_DONE = 0,       /* all was done */
  HIB_FOUND = 1,      /* an audited journal is illegal; or of the tools: an order ends badly, or what was asked for isn't there */
  HIB_USAGE = 2,      /* the words have no form here, or ask for a file, a trace or threads, which the line names; nothing was read */
  HIB_REFUSED = 3,    /* the input is no script: the line has the number of its first bad line, and the word of the rule */
  HIB_NO_ROOM = 5,    /* the text doesn't fit; `out` has its front, and *length says how much room it needs */
  HIB_TOO_LONG = 6,   /* the input is longer than 1,048,576 bytes, or than 67,108,864 with a journal behind the script */
  HIB_NO_MEMORY = 8   /* memory ran out */
};

/* What `hib WORD ..` does, for the words play, make, audit, collect, bulk and nodes.
 *
 *   words        the words, one a line, as "play\n--journal"; UTF-8
 *   input        what the program reads on standard input: a script, or for audit a script, a line `journal`, and JSON lines
 *   out          room for what it writes on standard output. As much of that as fits stands in front; behind it nothing is changed.
 *   length       how long all of that is, which may be more than out_room
 *   line         room for what it says on standard error, with its line end; 256 bytes are enough. None is said if all was done.
 *   line_length  how long that is
 *
 * Answers one of hib_status. 4 can't come; 7 and 9 are of threads and files, which no call has. A length of 0 is right for each room: so a call with none tells by
 * *length what room the text needs. */
uint8_t hib_call(const uint8_t *words, size_t words_length, const uint8_t *input, size_t input_length, uint8_t *out, size_t out_room,
                 size_t *length, uint8_t *line, size_t line_room, size_t *line_length);

/* What `hib tools WORD ..` does, for the words orders, report, flat, schedule, spans and states, in the same way. */
uint8_t hib_tool(const uint8_t *words, size_t words_length, const uint8_t *input, size_t input_length, uint8_t *out, size_t out_room,
                 size_t *length, uint8_t *line, size_t line_room, size_t *line_length);

#ifdef __cplusplus
}
#endif
#endif
