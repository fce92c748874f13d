/* Calls the library from C.
 *
 *   calls cases FOLDER    makes the calls of FOLDER/1.words, FOLDER/1.input, .. and compares what comes of each with .text, .line, .status
 *   calls bad SCRIPT      hands over bad input, rooms that are too small, and memory that runs out
 *
 * Linked with --wrap for malloc, realloc and free, by which allocations are counted and made to fail. The status is 1 if something is
 * otherwise than it should be. */
#include "hib.h"
#include <stdio.h>
#include <stdlib.h>
#include <string.h>

typedef uint8_t (*call_t)(const uint8_t *, size_t, const uint8_t *, size_t, uint8_t *, size_t, size_t *, uint8_t *, size_t, size_t *);

struct bytes { uint8_t *at; size_t length; };

static int failed;
static void expect(int holds, const char *what, long number) {
  if (holds) return;
  printf("%s (%ld)\n", what, number);
  failed = 1;
}

/* ---- allocations: how many there were, how many still stand, and which one fails */

void *__real_malloc(size_t);
void *__real_realloc(void *, size_t);
void __real_free(void *);
static long asked, standing, failing = -1;

static int fails(void) { return ++asked == failing; }

void *__wrap_malloc(size_t size) {
  if (fails()) return 0;
  void *at = __real_malloc(size);
  standing += at != 0;
  return at;
}

void *__wrap_realloc(void *old, size_t size) {
  if (fails()) return 0;
  void *at = __real_realloc(old, size);
  standing += at && !old;
  return at;
}

void __wrap_free(void *at) {
  standing -= at != 0;
  __real_free(at);
}

/* ---- files */

static struct bytes read_file(const char *name) {
  struct bytes b = {0, 0};
  FILE *file = fopen(name, "rb");
  if (!file) return b;
  fseek(file, 0, SEEK_END);
  b.length = (size_t)ftell(file);
  rewind(file);
  b.at = __real_malloc(b.length + 1);
  b.length = fread(b.at, 1, b.length, file);
  fclose(file);
  return b;
}

static int same(const uint8_t *at, size_t length, struct bytes b) { return length == b.length && (length == 0 || !memcmp(at, b.at, length)); }

/* ---- cases */

static struct bytes part(const char *folder, long number, const char *end) {
  char name[4096];
  snprintf(name, sizeof name, "%s/%ld.%s", folder, number, end);
  return read_file(name);
}

static void try_case(const char *folder, long number) {
  struct bytes words = part(folder, number, "words"), input = part(folder, number, "input"), text = part(folder, number, "text");
  struct bytes line = part(folder, number, "line"), status = part(folder, number, "status");
  int is_tool = words.length > 6 && !memcmp(words.at, "tools\n", 6);
  call_t call = is_tool ? hib_tool : hib_call;
  uint8_t said[256], *out;
  size_t front = is_tool ? 6 : 0, length = 0, said_length = 0, room;
  uint8_t first = call(words.at + front, words.length - front, input.at, input.length, 0, 0, &length, said, sizeof said, &said_length);
  room = length;
  out = __real_malloc(room + 1); /* as much as the text needs, so that the sanitizer sees a byte too many */
  uint8_t came = call(words.at + front, words.length - front, input.at, input.length, out, room, &length, said, sizeof said, &said_length);
  expect(room == 0 ? first == came : first == HIB_NO_ROOM, "a call without a room has another status", number);
  expect(came == atoi((char *)status.at), "another status", number);
  expect(same(out, length, text), "another text", number);
  expect(same(said, said_length, line), "another line", number);
  __real_free(words.at), __real_free(input.at), __real_free(text.at), __real_free(line.at), __real_free(status.at), __real_free(out);
}

static void try_cases(const char *folder) {
  for (long number = 1;; number++) {
    struct bytes words = part(folder, number, "words");
    if (!words.at) break;
    __real_free(words.at);
    try_case(folder, number);
  }
}

/* ---- bad input */

static uint8_t ask(const char *words, const void *input, size_t size, uint8_t *out, size_t room, size_t *length, char *said) {
  size_t said_length;
  uint8_t status = hib_call((const uint8_t *)words, strlen(words), input, size, out, room, length, (uint8_t *)said, 255, &said_length);
  said[said_length] = 0;
  return status;
}

static void try_rooms(struct bytes script) {
  size_t whole, length;
  char said[256];
  ask("play", script.at, script.length, 0, 0, &whole, said);
  uint8_t *text = __real_malloc(whole), *out = __real_malloc(whole + 8);
  expect(ask("play", script.at, script.length, text, whole, &length, said) == HIB_DONE && length == whole && !*said, "a room that fits", 0);
  for (size_t room = 0; room <= whole + 8; room += room < 8 || room + 2 > whole ? 1 : whole / 7) {
    memset(out, 170, whole + 8);
    uint8_t status = ask("play", script.at, script.length, out, room, &length, said);
    size_t front = room < whole ? room : whole;
    expect(status == (room < whole ? HIB_NO_ROOM : HIB_DONE) && length == whole, "a status or length of a small room", (long)room);
    expect(!strcmp(said, room < whole ? "hib: write fault\n" : ""), "a line of a small room", (long)room);
    expect(!memcmp(out, text, front), "the front in a small room", (long)room);
    for (size_t i = front; i < whole + 8; i++) expect(out[i] == 170, "a byte behind a text was changed", (long)room);
  }
  uint8_t two[3] = {170, 170, 170};
  size_t said_length;
  hib_call((const uint8_t *)"", 0, 0, 0, 0, 0, &length, two, 2, &said_length);
  expect(!memcmp(two, "hi\xaa", 3) && said_length == 11 && length == 0, "a small room for a line", 0);
  expect(hib_call(0, 0, 0, 0, 0, 0, &length, 0, 0, &said_length) == HIB_USAGE && said_length == 11, "a null pointer for each", 0);
  __real_free(text), __real_free(out);
}

static void try_inputs(struct bytes script) {
  static uint8_t out[1 << 16], many[1048577];
  size_t length;
  char said[256];
  struct { const char *words; const char *input; size_t size; int status; const char *line; } all[] = {
    {"play", 0, 0, HIB_REFUSED, "hib: line 1: header\n"},
    {"play", "\xff\xfe\n", 3, HIB_REFUSED, "hib: line 1: byte\n"},
    {"play", "hib 1\n\0", 7, HIB_REFUSED, "hib: line 2: byte\n"},
    {"pl\xff", "hib 1\n", 6, HIB_USAGE, "hib: usage\n"},
    {"play\n\n", "hib 1\n", 6, HIB_USAGE, "hib: usage\n"},
    {"play\n--file\nx.db", "hib 1\n", 6, HIB_USAGE, "hib: usage: the library keeps no file, so it takes no --file\n"},
    {"play\n--trace", "hib 1\n", 6, HIB_USAGE, "hib: usage: the library has no standard error, so it takes no --trace\n"},
    {"work\n--workers\n2", "hib 1\n", 6, HIB_USAGE, "hib: usage: the library starts no thread, so it takes no work\n"},
    {"audit", "hib 1\n", 6, HIB_REFUSED, 0},
  };
  for (size_t i = 0; i < sizeof all / sizeof *all; i++) {
    int status = ask(all[i].words, all[i].input, all[i].size, out, sizeof out, &length, said);
    expect(status == all[i].status && length == 0, "the status of a bad input", (long)i);
    expect(!all[i].line || !strcmp(said, all[i].line), said, (long)i);
  }
  memset(many, '#', sizeof many);
  expect(ask("play", many, sizeof many, out, sizeof out, &length, said) == HIB_TOO_LONG, "an input that is a byte too long", 0);
  expect(ask("play", many, sizeof many - 1, out, sizeof out, &length, said) == HIB_REFUSED, "an input as long as may be", 0);
  expect(ask("play", script.at, script.length, out, sizeof out, &length, said) == HIB_DONE, "a call after bad ones", 0);
}

/* Each allocation of a call fails in turn. */
static void try_memory(struct bytes script) {
  static uint8_t out[1 << 16];
  size_t length;
  char said[256];
  long count;
  asked = standing = 0;
  ask("play", script.at, script.length, out, sizeof out, &length, said);
  count = asked;
  expect(standing == 0, "what still stands after a call", standing);
  for (long n = 1; n <= count; n++) {
    asked = standing = 0, failing = n;
    int status = ask("play", script.at, script.length, out, sizeof out, &length, said);
    failing = -1;
    expect(standing == 0, "what still stands after an allocation has failed", n);
    expect(status == HIB_NO_MEMORY ? !strcmp(said, "hib: no memory\n") : status == HIB_DONE, "a status after an allocation has failed", n);
  }
  printf("each of %ld allocations has failed\n", count);
}

int main(int argc, char **argv) {
  if (argc != 3) return 2;
  if (!strcmp(argv[1], "cases")) try_cases(argv[2]);
  else {
    struct bytes script = read_file(argv[2]);
    try_rooms(script);
    try_inputs(script);
    try_memory(script);
    __real_free(script.at);
  }
  return failed;
}
