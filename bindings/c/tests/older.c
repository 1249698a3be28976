/* A program that is compiled against the header of version 0.1.0, and runs with the library of today. It ends with status 1 if
 * a function, a number or a struct of that header means something else now. */
#include <stdio.h>
#include <string.h>

#include "tocmark-0.1.0.h"

#define TEXT(text) (const uint8_t *)(text), strlen(text)

static int faults;

/* Compares what a call wrote, of which it returned the size. */
static void wants(const char *call, ptrdiff_t size, const uint8_t *out, const char *wanted) {
  if (size < 0 || (size_t)size != strlen(wanted) || memcmp(out, wanted, (size_t)size) != 0) {
    fprintf(stderr, "%s: %td bytes, or other ones than %s\n", call, size, wanted);
    faults++;
  }
}

static void wants_code(const char *call, ptrdiff_t found, ptrdiff_t wanted) {
  if (found != wanted) {
    fprintf(stderr, "%s: %td for %td\n", call, found, wanted);
    faults++;
  }
}

int main(void) {
  static uint8_t out[10000];
  struct tocmark_style style = {.size = sizeof style, .bullet = '+'};
  struct tocmark_place place = {sizeof place, 0, 0, 0};
  if (tocmark_version() < TOCMARK_VERSION)
    faults++;
  wants("read_json", tocmark_read_json(TEXT("***"), TOCMARK_GFM, out, sizeof out), out, "[[\"Rule\",{\"end\":3,\"start\":0}]]");
  wants("format", tocmark_format(TEXT("*  a\n*  b\n"), TOCMARK_GFM, &style, out, sizeof out), out, "+  a\n+  b\n");
  wants("rewrite", tocmark_rewrite(TEXT("[\"Rule\"]"), TEXT("*  a\n\n\n***\n"), TOCMARK_GFM, NULL, 0, &place, out, sizeof out),
        out, "***\n");
  wants("compare", tocmark_compare(TEXT("*a*\n"), TEXT("_a_\n"), TOCMARK_GFM, TOCMARK_ALLOW_UNRENDERED, out, sizeof out), out,
        "[]");
  style.size = 3;
  wants_code("format", tocmark_format(TEXT("a\n"), TOCMARK_GFM, &style, out, sizeof out), TOCMARK_INVALID_STYLE);
  wants_code("read_json", tocmark_read_json(TEXT("\xff"), TOCMARK_GFM, out, sizeof out), TOCMARK_NOT_UTF8);
  static const char open[] = "[{\"Start\":\"Paragraph\"}]";
  wants_code("rewrite", tocmark_rewrite(TEXT(open), TEXT("a\n"), TOCMARK_GFM, NULL, 0, &place, out, sizeof out),
             TOCMARK_UNEXPECTED_EVENT);
  return faults != 0;
}
