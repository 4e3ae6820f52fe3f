/* json_lines FIELDS PIECE FILE TIMES: the lines that `json_bench entry FIELDS PIECE FILE` makes, by a function that trusts its
 * input and knows numbers of 1, 2, 4 and 8 octets and IPv4 addresses alone. It shows what the work itself costs: what stands
 * before a value is copied as a block of 64 octets, octets of addresses come from a table, and decimals go two digits at a time. */
#include <endian.h>
#include <stdint.h>
#include <stdio.h>
#include <stdlib.h>
#include <string.h>
#include <time.h>

enum { FIELDS = 64, ADDRESS = 0 };
struct field { char text[64]; unsigned text_size, shape, at; };

static const struct { unsigned id; const char *name; } names[] = {
  {1, "octetDeltaCount"}, {2, "packetDeltaCount"}, {4, "protocolIdentifier"}, {5, "ipClassOfService"}, {6, "tcpControlBits"},
  {7, "sourceTransportPort"}, {8, "sourceIPv4Address"}, {10, "ingressInterface"}, {11, "destinationTransportPort"},
  {12, "destinationIPv4Address"}, {14, "egressInterface"}, {152, "flowStartMilliseconds"}, {153, "flowEndMilliseconds"}};
static struct field field[FIELDS];
static unsigned fields, record_size, last_size;
static char last[64], octets[256][4], pairs[200];
static unsigned octet_size[256];

static inline char *put_4(char *to, uint32_t number) { memcpy(to, pairs + 2 * (number / 100), 2); memcpy(to + 2, pairs + 2 * (number % 100), 2); return to + 4; }
static inline char *put_8(char *to, uint32_t number) { return put_4(put_4(to, number / 10000), number % 10000); }

static inline char *put_32(char *to, uint32_t number) {
  if (number < 100) {
    if (number < 10) { *to = '0' + number; return to + 1; }
    memcpy(to, pairs + 2 * number, 2);
    return to + 2;
  }
  if (number < 10000) {
    uint32_t high = number / 100;
    if (high < 10) *to++ = '0' + high; else { memcpy(to, pairs + 2 * high, 2); to += 2; }
    memcpy(to, pairs + 2 * (number % 100), 2);
    return to + 2;
  }
  if (number < 100000000) return put_4(put_32(to, number / 10000), number % 10000);
  return put_8(put_32(to, number / 100000000), number % 100000000);
}

static char *put_64(char *to, uint64_t number) {
  if (number >> 32 == 0) return put_32(to, number);
  uint64_t high = number / 100000000;
  to = high >> 32 == 0 ? put_32(to, high) : put_8(put_32(to, high / 100000000), high % 100000000);
  return put_8(to, number % 100000000);
}

static inline char *put_octet(char *to, unsigned octet, char mark) { memcpy(to, octets[octet], 4); to += octet_size[octet]; *to = mark; return to + 1; }

__attribute__((noinline)) static char *put_records(const uint8_t *at, const uint8_t *end, char *to) {
  for (; end - at >= record_size; at += record_size) {
    for (const struct field *f = field; f < field + fields; f++) {
      memcpy(to, f->text, 64);
      to += f->text_size;
      const uint8_t *value = at + f->at;
      uint16_t two; uint32_t four; uint64_t eight;
      switch (f->shape) {
        case ADDRESS: *to++ = '"'; to = put_octet(put_octet(put_octet(put_octet(to, value[0], '.'), value[1], '.'), value[2], '.'), value[3], '"'); break;
        case 1: memcpy(to, octets[*value], 4); to += octet_size[*value]; break;
        case 2: memcpy(&two, value, 2); to = put_32(to, be16toh(two)); break;
        case 4: memcpy(&four, value, 4); to = put_32(to, be32toh(four)); break;
        default: memcpy(&eight, value, 8); to = put_64(to, be64toh(eight));
      }
    }
    memcpy(to, last, 64);
    to += last_size;
  }
  return to;
}

static void take_fields(char *words) {
  for (char *word = strtok(words, ","); word; word = strtok(0, ",")) {
    unsigned pen, id, size, i = 0;
    if (fields == FIELDS || sscanf(word, "%u/%u/%u", &pen, &id, &size) != 3 || pen) exit(2);
    while (i < sizeof names / sizeof *names && names[i].id != id) i++;
    if (i == sizeof names / sizeof *names) exit(2);
    struct field *f = field + fields;
    f->text_size = snprintf(f->text, 64, "%s,\"iana:%s\":", fields ? "" : "{\"@type\":\"ipfix.entry\"", names[i].name);
    f->shape = id == 8 || id == 12 ? ADDRESS : size;
    f->at = record_size;
    record_size += size;
    fields++;
  }
  last_size = snprintf(last, 64, "}\n");
}

int main(int count, char **words) {
  if (count != 5) return 2;
  for (int i = 0; i < 256; i++) { char text[8]; octet_size[i] = snprintf(text, 8, "%d", i); memcpy(octets[i], text, 4); }
  for (int i = 0; i < 100; i++) { pairs[2 * i] = '0' + i / 10; pairs[2 * i + 1] = '0' + i % 10; }
  take_fields(words[1]);
  size_t piece = atol(words[2]), times = atol(words[4]);
  FILE *in = fopen(words[3], "rb");
  if (!in || fseek(in, 0, SEEK_END)) return 2;
  size_t size = ftell(in);
  uint8_t *body = malloc(size + 64);
  char *room = malloc(piece * 64 + 65536);
  rewind(in);
  if (!body || !room || fread(body, 1, size, in) != size) return 2;
  uint64_t records = 0, made = 0, sum = 0xcbf29ce484222325;
  for (size_t at = 0; at < size; at += piece) {
    char *end = put_records(body + at, body + (size - at < piece ? size : at + piece), room);
    for (char *c = room; c < end; c++) { sum = (sum ^ (uint8_t)*c) * 0x100000001b3; records += *c == '\n'; }
    made += end - room;
  }
  printf("%lu records, %lu octets of lines, sum %lu\n", records, made, sum);
  struct timespec start, stop;
  clock_gettime(CLOCK_MONOTONIC, &start);
  uint64_t total = 0;
  for (size_t turn = 0; turn < times; turn++)
    for (size_t at = 0; at < size; at += piece) total += put_records(body + at, body + (size - at < piece ? size : at + piece), room) - room;
  clock_gettime(CLOCK_MONOTONIC, &stop);
  double took = (stop.tv_sec - start.tv_sec) * 1e9 + (stop.tv_nsec - start.tv_nsec);
  if (times) printf("%.0f ps a record, %.0f ps a field, %.0f ps an octet of text\n", took * 1e3 / records / times, took * 1e3 / records / times / fields, took * 1e3 / total);
  return 0;
}
