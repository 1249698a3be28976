/* Writes Markdown anew, with `-` for bullets: standard input to standard output. With the word `format` all blocks have one
 * look, and the text says what it said. */
#include "tocmark.h"

#include <stdio.h>
#include <stdlib.h>
#include <string.h>

/* A text, and how many bytes it has; or no text, and an error's code. */
struct text {
  uint8_t *bytes;
  ptrdiff_t size;
};

static struct text events(const uint8_t *markdown, size_t size) {
  struct text json = {NULL, tocmark_read_json(markdown, size, TOCMARK_GFM, (uint8_t *)"", 0)};
  if (json.size >= 0 && (json.bytes = malloc((size_t)json.size + 1)) != NULL)
    json.size = tocmark_read_json(markdown, size, TOCMARK_GFM, json.bytes, (size_t)json.size);
  return json;
}

static ptrdiff_t write_back(struct text json, const uint8_t *source, size_t size, uint8_t *out, size_t out_len) {
  static const char options[] = "{\"list_token\": \"-\"}";
  return tocmark_write_json(json.bytes, (size_t)json.size, source, size, TOCMARK_GFM, (const uint8_t *)options,
                            strlen(options), out, out_len);
}

static int refuse(ptrdiff_t code) {
  uint8_t line[100];
  ptrdiff_t size = tocmark_error_text(code, line, sizeof line);
  fprintf(stderr, "example: %.*s\n", (int)size, (const char *)line);
  return 1;
}

static ptrdiff_t write_anew(const uint8_t *source, size_t size, uint8_t *out, size_t out_len) {
  struct text json = events(source, size);
  if (json.size < 0 || json.bytes == NULL)
    return json.size < 0 ? json.size : TOCMARK_OUT_OF_MEMORY;
  ptrdiff_t length = write_back(json, source, size, out, out_len);
  free(json.bytes);
  return length;
}

static ptrdiff_t format(const uint8_t *source, size_t size, uint8_t *out, size_t out_len) {
  static const struct tocmark_style style = {.size = sizeof style, .bullet = '-'};
  return tocmark_format(source, size, TOCMARK_GFM, &style, out, out_len);
}

int main(int argc, char **argv) {
  static uint8_t source[1 << 20], out[1 << 22];
  size_t size = fread(source, 1, sizeof source, stdin);
  int formats = argc > 1 && strcmp(argv[1], "format") == 0;
  ptrdiff_t length = (formats ? format : write_anew)(source, size, out, sizeof out);
  if (length < 0)
    return refuse(length);
  if ((size_t)length > sizeof out)
    return refuse(TOCMARK_OUT_OF_MEMORY);
  return fwrite(out, 1, (size_t)length, stdout) == (size_t)length ? 0 : 1;
}
