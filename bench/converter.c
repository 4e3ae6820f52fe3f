/* converter IN OUT: the lines that `ipfixcol direct IN OUT` writes, by a program that trusts its input: it looks at
 * no length but the file's, and knows the elements 1, 8 and 12 alone. It shows what the work itself costs. */
#include <fcntl.h>
#include <stdint.h>
#include <stdio.h>
#include <stdlib.h>
#include <string.h>
#include <sys/mman.h>
#include <sys/stat.h>
#include <unistd.h>

enum { FIELDS = 16, ROOM = 1 << 18, LINE = 4096 };

struct field { const char *name; size_t name_size; unsigned element, size; };
struct template { unsigned fields, size; struct field field[FIELDS]; };

static struct template templates[65536];
static char digits[256][4];
static unsigned digit_count[256];
static char room[ROOM + LINE], *end = room;
static int out;

static void fail(const char *why) { fprintf(stderr, "converter: %s\n", why); exit(1); }

static unsigned two(const uint8_t *at) { return at[0] << 8 | at[1]; }

static void flush(void) {
  for (char *at = room; at < end;) {
    ssize_t wrote = write(out, at, end - at);
    if (wrote <= 0) fail("write");
    at += wrote;
  }
  end = room;
}

static void put(const char *text, size_t size) { memcpy(end, text, size); end += size; }

static void put_octet(unsigned octet, char mark) {
  memcpy(end, digits[octet], 4);
  end += digit_count[octet];
  *end++ = mark;
}

static void put_number(uint64_t number) {
  char text[20];
  int at = 20;
  do { text[--at] = '0' + number % 10; number /= 10; } while (number);
  put(text + at, 20 - at);
}

static void put_value(const struct field *field, const uint8_t *at) {
  if (field->element == 1) {
    uint64_t number = 0;
    for (unsigned i = 0; i < field->size; i++) number = number << 8 | at[i];
    put_number(number);
    return;
  }
  *end++ = '"';
  put_octet(at[0], '.'); put_octet(at[1], '.'); put_octet(at[2], '.'); put_octet(at[3], '"');
}

static void put_record(const struct template *template, const uint8_t *at) {
  put("{\"@type\":\"ipfix.entry\"", 22);
  for (unsigned i = 0; i < template->fields; i++) {
    const struct field *field = &template->field[i];
    put(field->name, field->name_size);
    put_value(field, at);
    at += field->size;
  }
  put("}\n", 2);
  if (end - room >= ROOM) flush();
}

static const char *name_of(unsigned element) {
  switch (element) {
    case 1: return ",\"iana:octetDeltaCount\":";
    case 8: return ",\"iana:sourceIPv4Address\":";
    case 12: return ",\"iana:destinationIPv4Address\":";
    default: fail("another element"); return 0;
  }
}

static void take_templates(const uint8_t *at, const uint8_t *last) {
  while (last - at >= 4) {
    struct template *template = &templates[two(at)];
    template->fields = two(at + 2);
    template->size = 0;
    if (template->fields > FIELDS) fail("too many fields");
    at += 4;
    for (unsigned i = 0; i < template->fields; i++, at += 4) {
      struct field *field = &template->field[i];
      *field = (struct field){ name_of(two(at)), strlen(name_of(two(at))), two(at), two(at + 2) };
      template->size += field->size;
    }
  }
}

static void take_set(const uint8_t *set, const uint8_t *last) {
  if (two(set) == 2) { take_templates(set + 4, last); return; }
  const struct template *template = &templates[two(set)];
  if (template->size == 0) fail("no template");
  for (const uint8_t *at = set + 4; last - at >= template->size; at += template->size) put_record(template, at);
}

int main(int count, char **words) {
  if (count != 3) fail("usage: converter IN OUT");
  int in = open(words[1], O_RDONLY);
  struct stat stat;
  if (in < 0 || fstat(in, &stat)) fail("IN");
  const uint8_t *at = mmap(0, stat.st_size, PROT_READ, MAP_PRIVATE, in, 0), *last = at + stat.st_size;
  out = open(words[2], O_WRONLY | O_CREAT | O_TRUNC, 0644);
  if (at == MAP_FAILED || out < 0) fail("IN or OUT");
  for (int i = 0; i < 256; i++) digit_count[i] = snprintf(digits[i], 4, "%d", i);
  while (at < last) {
    const uint8_t *next = at + two(at + 2);
    for (at += 16; at < next; at += two(at + 2)) take_set(at, at + two(at + 2));
  }
  flush();
  return 0;
}
