/* converter_lines FIELDS PIECE FILE TIMES: the lines of a body of records by the function of converter.c, in memory. It
 * maps FILE piece by piece TIMES times and once more, and prints how many records there are, and how many octets of lines
 * with their sum (FNV-1a), as json_bench does. */
#define main converter
#include "converter.c"
#undef main

static struct template template;
static size_t piece;

static void take_fields(char *words) {
  for (char *word = strtok(words, ","); word; word = strtok(0, ",")) {
    unsigned pen, element, size;
    if (template.fields == FIELDS || sscanf(word, "%u/%u/%u", &pen, &element, &size) != 3 || pen) fail("FIELDS");
    template.field[template.fields++] = (struct field){ name_of(element), strlen(name_of(element)), element, size };
    template.size += size;
  }
}

__attribute__((noinline)) static void put_records(const uint8_t *at, const uint8_t *last) {
  for (end = room; last - at >= template.size; at += template.size) put_record(&template, at);
}

int main(int count, char **words) {
  if (count < 4) fail("words: FIELDS PIECE FILE [TIMES]");
  take_fields(words[1]);
  piece = strtoul(words[2], 0, 10);
  int in = open(words[3], O_RDONLY);
  struct stat stat;
  if (piece == 0 || in < 0 || fstat(in, &stat)) fail("PIECE or FILE");
  uint8_t *body = malloc(stat.st_size);
  for (size_t got = 0; got < (size_t)stat.st_size;) {
    ssize_t more = read(in, body + got, stat.st_size - got);
    if (more <= 0) fail("FILE");
    got += more;
  }
  const uint8_t *last = body + stat.st_size;
  for (int i = 0; i < 256; i++) digit_count[i] = snprintf(digits[i], 4, "%d", i);
  uint64_t records = 0, octets = 0, sum = 0xcbf29ce484222325;
  for (const uint8_t *at = body; at < last; at += piece) {
    put_records(at, (size_t)(last - at) < piece ? last : at + piece);
    for (char *each = room; each < end; each++) {
      sum = (sum ^ (uint8_t)*each) * 0x100000001b3;
      records += *each == '\n';
    }
    octets += end - room;
  }
  printf("%lu records, %lu octets of lines, sum %lu\n", records, octets, sum);
  for (long times = count > 4 ? strtol(words[4], 0, 10) : 0; times > 0; times--) {
    for (const uint8_t *at = body; at < last; at += piece) put_records(at, (size_t)(last - at) < piece ? last : at + piece);
  }
  return 0;
}
