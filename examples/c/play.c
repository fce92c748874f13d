/* Plays the script on standard input by the C library: the report goes to standard output, and what is to be said to standard error.
 *
 *   ./hib library && export PKG_CONFIG_PATH=library/out
 *   gcc -o play examples/c/play.c $(pkg-config --cflags --libs hib) -Wl,-rpath,$PWD/library/out
 *   ./play < examples/stale.hib */
#include <hib.h>
#include <stdio.h>
#include <stdlib.h>
#include <string.h>

#define MOST (1 << 20) /* a script has no more bytes; with one more the library says so */

int main(void) {
  static uint8_t script[MOST + 1], line[256];
  size_t read = fread(script, 1, sizeof script, stdin), length = 1 << 16, line_length;
  uint8_t *text = NULL, status = HIB_NO_ROOM;
  /* A first call with a room that may be too small tells how much the text needs. */
  for (int i = 0; i < 2 && status == HIB_NO_ROOM; i++) {
    size_t room = length;
    free(text);
    text = malloc(room);
    if (!text) return HIB_NO_MEMORY;
    status = hib_call((const uint8_t *)"play", strlen("play"), script, read, text, room, &length, line, sizeof line, &line_length);
  }
  fwrite(text, 1, length, stdout);
  fwrite(line, 1, line_length, stderr);
  free(text);
  return status;
}
