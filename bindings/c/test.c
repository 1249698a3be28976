/* Tests the library over the texts on standard input, one JSON string a line ('#' starts a comment): what is answered into
 * room of each size, the same by two threads at once, texts with bytes changed at random, and, where it is linked with
 * --wrap=malloc,--wrap=realloc, each refusal of memory. The status is 1 if something is wrong. */
#include "tocmark.h"

#include <pthread.h>
#include <stdio.h>
#include <stdlib.h>
#include <string.h>

enum { MUTATIONS = 1000, LONGEST = 1 << 16 };

struct text {
  uint8_t *bytes;
  size_t size;
};

static struct text *texts;
static size_t count;

static void wrong(const char *what, const struct text *text) {
  fprintf(stderr, "test: %s: %.*s\n", what, text ? (int)text->size : 0, text ? (const char *)text->bytes : "");
  exit(1);
}

/* --- memory that is refused --- */

#ifndef SHARED
static _Thread_local long allowed = -1;
void *__real_malloc(size_t size);
void *__real_realloc(void *block, size_t size);

static int is_refused(void) { return allowed >= 0 && allowed-- == 0; }
void *__wrap_malloc(size_t size) { return is_refused() ? NULL : __real_malloc(size); }
void *__wrap_realloc(void *block, size_t size) { return is_refused() ? NULL : __real_realloc(block, size); }
#endif

static void *memory(size_t size) {
  void *block = malloc(size ? size : 1);
  if (block == NULL)
    wrong("no memory", NULL);
  return block;
}

/* --- one call, of one of five kinds --- */

/* What is done with a text and a source. */
enum way { WRITES, REWRITES, COMPARES };

struct call {
  const struct text *text;
  const struct text *source; /* NULL: the text is Markdown, and is read or formatted */
  const char *options;
  uint32_t flags;
  const struct tocmark_style *style; /* where there is one, the text is formatted */
  enum way way;                      /* the source is rewritten to the text's events, or compared with the text */
};

/* Structs as a later header could have them: with one more field. */
struct later_place {
  struct tocmark_place known;
  size_t more;
};

struct later_style {
  struct tocmark_style known;
  uint32_t more;
};

static const struct tocmark_style hyphens = {.size = sizeof hyphens, .bullet = '-', .numbering = 1, .emphasis = '_'};

static ptrdiff_t made(const struct call *call, uint8_t *out, size_t out_len) {
  if (call->style != NULL)
    return tocmark_format(call->text->bytes, call->text->size, call->flags, call->style, out, out_len);
  if (call->source == NULL)
    return tocmark_read_json(call->text->bytes, call->text->size, call->flags, out, out_len);
  const uint8_t *options = (const uint8_t *)call->options;
  if (call->way == COMPARES)
    return tocmark_compare(call->source->bytes, call->source->size, call->text->bytes, call->text->size, call->flags, 0, out,
                           out_len);
  if (call->way == REWRITES)
    return tocmark_rewrite(call->text->bytes, call->text->size, call->source->bytes, call->source->size, call->flags,
                           options, strlen(call->options), NULL, out, out_len);
  return tocmark_write_json(call->text->bytes, call->text->size, call->source->bytes, call->source->size, call->flags,
                            options, strlen(call->options), out, out_len);
}

/* What a call answers: its size is tried with no room, one byte too few, just enough and more. */
static ptrdiff_t answer(const struct call *call, struct text *answered) {
  uint8_t none = 0xA5;
  ptrdiff_t size = made(call, &none, 0);
  answered->bytes = NULL;
  answered->size = 0;
  if (none != 0xA5)
    wrong("a byte is written where there is no room", call->text);
  if (size < 0)
    return size;
  size_t n = (size_t)size;
  uint8_t *room = memory(n + 8);
  memset(room, 0xA5, n + 8);
  if (n > 0 && made(call, room, n - 1) != size)
    wrong("another size where the room is too small", call->text);
  for (size_t i = 0; i < n + 8; i++)
    if (room[i] != 0xA5)
      wrong("a byte is written where the room is too small", call->text);
  if (made(call, room, n) != size)
    wrong("another size where the room is just enough", call->text);
  for (size_t i = n; i < n + 8; i++)
    if (room[i] != 0xA5)
      wrong("a byte is written behind the room", call->text);
  answered->bytes = memory(n + 8);
  answered->size = n;
  memset(answered->bytes, 0x5A, n + 8);
  if (made(call, answered->bytes, n + 8) != size || memcmp(room, answered->bytes, n) != 0)
    wrong("another text where there is more room", call->text);
  for (size_t i = n; i < n + 8; i++)
    if (answered->bytes[i] != 0x5A)
      wrong("a byte is written behind the text", call->text);
  free(room);
  return size;
}

/* --- whole runs --- */

static uint64_t noted(uint64_t sum, ptrdiff_t code, const struct text *text) {
  sum = (sum ^ (uint64_t)code) * 1099511628211u;
  for (size_t i = 0; i < text->size; i++)
    sum = (sum ^ text->bytes[i]) * 1099511628211u;
  return sum;
}

/* A text is read and written over itself and over nothing, rewritten to its own events, which changes nothing, and formatted. */
static uint64_t round_trip(uint64_t sum, const struct text *text, uint32_t flags, int is_mutated) {
  static const char *const options[] = {"", "{\"list_token\": \"-\", \"newlines_after_headline\": 1}"};
  static const struct text nothing = {(uint8_t *)"", 0};
  struct text json, markdown;
  ptrdiff_t code = answer(&(struct call){text, NULL, "", flags, NULL, WRITES}, &json);
  sum = noted(sum, code, &json);
  if (code < 0 && !(is_mutated && code == TOCMARK_NOT_UTF8))
    wrong("it isn't read", text);
  for (size_t i = 0; code >= 0 && i < 2; i++) {
    struct call call = {&json, i ? text : &nothing, options[i], flags, NULL, WRITES};
    ptrdiff_t ended = answer(&call, &markdown);
    sum = noted(sum, ended, &markdown);
    if (ended < 0 && !(is_mutated && ended == TOCMARK_UNREPRESENTABLE))
      wrong("it isn't written", text);
    free(markdown.bytes);
  }
  if (code >= 0 && (answer(&(struct call){&json, text, "", flags, NULL, REWRITES}, &markdown) != (ptrdiff_t)text->size ||
                    memcmp(markdown.bytes, text->bytes, text->size) != 0))
    wrong("it is rewritten to another text", text);
  if (code >= 0)
    free(markdown.bytes);
  free(json.bytes);
  ptrdiff_t formatted = answer(&(struct call){text, NULL, "", flags, &hyphens, WRITES}, &markdown);
  sum = noted(sum, formatted, &markdown);
  if (formatted < 0 && formatted != code)
    wrong("it isn't formatted", text);
  free(markdown.bytes);
  return sum;
}

static uint32_t next(uint32_t *seed) {
  *seed ^= *seed << 13;
  *seed ^= *seed >> 17;
  *seed ^= *seed << 5;
  return *seed;
}

/* A copy of a text with some bytes changed, dropped or doubled. */
static struct text mutated(const struct text *text, uint32_t *seed) {
  static const char marks[] = "*_`~[]()<>#-+.:|\\!&;\n \t\"{}1aA\xC3\xA9\xFF";
  struct text copy = {memory(2 * text->size + 16), 0};
  for (size_t i = 0; i < text->size; i++) {
    uint32_t how = next(seed) % 24;
    if (how == 0)
      continue;
    copy.bytes[copy.size++] = how == 1 ? (uint8_t)marks[next(seed) % (sizeof marks - 1)] : text->bytes[i];
    if (how == 2)
      copy.bytes[copy.size++] = (uint8_t)marks[next(seed) % (sizeof marks - 1)];
  }
  return copy;
}

/* JSON of events with bytes changed: any error may come, and the answers stay the same. */
static uint64_t broken_json(uint64_t sum, const struct text *text, uint32_t *seed) {
  struct text json, broken, markdown;
  if (answer(&(struct call){text, NULL, "", TOCMARK_GFM, NULL, 0}, &json) < 0)
    return sum;
  broken = mutated(&json, seed);
  for (size_t i = 0; i < 2; i++) {
    struct call call = {&broken, i ? text : &(struct text){(uint8_t *)"", 0}, "", TOCMARK_GFM, NULL, 0};
    ptrdiff_t code = answer(&call, &markdown);
    sum = noted(sum, code, &markdown);
    free(markdown.bytes);
  }
  ptrdiff_t rewritten = answer(&(struct call){&broken, text, "", TOCMARK_GFM, NULL, 1}, &markdown);
  sum = noted(sum, rewritten, &markdown);
  free(markdown.bytes);
  free(broken.bytes);
  free(json.bytes);
  return sum;
}

static void *run(void *sum) {
  uint64_t found = 1469598103934665603u;
  uint32_t seed = 2463534242u;
  for (size_t i = 0; i < count; i++)
    found = round_trip(found, &texts[i], i % 2 ? TOCMARK_GFM : 0, 0);
  for (size_t i = 0; i < MUTATIONS; i++) {
    struct text text = mutated(&texts[i % count], &seed);
    found = round_trip(found, &text, i % 2 ? TOCMARK_GFM : 0, 1);
    if (i % 4 == 0)
      found = broken_json(found, &text, &seed);
    free(text.bytes);
  }
  *(uint64_t *)sum = found;
  return NULL;
}

/* --- what each error is caused by --- */

static void expect(ptrdiff_t code, ptrdiff_t wanted, const char *what) {
  if (code != wanted) {
    fprintf(stderr, "test: %s: %td, and not %td\n", what, code, wanted);
    exit(1);
  }
}

static ptrdiff_t writes(const char *json, const char *source, uint32_t flags, const char *options) {
  uint8_t out[100];
  return tocmark_write_json((const uint8_t *)json, strlen(json), (const uint8_t *)source, strlen(source), flags,
                            (const uint8_t *)options, strlen(options), out, sizeof out);
}

static ptrdiff_t checks(const char *json) {
  uint8_t out[100];
  return tocmark_write_checked((const uint8_t *)json, strlen(json), (const uint8_t *)"", 0, TOCMARK_GFM,
                               (const uint8_t *)"", 0, out, sizeof out);
}

/* --- rewriting --- */

static struct tocmark_place place;

/* Rewrites a source, where what is wanted is a text, or an error's code, an event and lines. */
static void rewrites(const char *json, const char *source, uint32_t flags, const char *wanted, ptrdiff_t code) {
  uint8_t out[100];
  place = (struct tocmark_place){sizeof place, 7, 8, 9};
  ptrdiff_t size = tocmark_rewrite((const uint8_t *)json, strlen(json), (const uint8_t *)source, strlen(source), flags, NULL,
                                   0, &place, out, sizeof out);
  expect(size, code < 0 ? code : (ptrdiff_t)strlen(wanted), json);
  if (size >= 0 && memcmp(out, wanted, (size_t)size) != 0)
    wrong("a source is rewritten otherwise", &(struct text){out, (size_t)size});
  if (size >= 0 && (place.event != 7 || place.first_line != 8 || place.last_line != 9))
    wrong("the place of no error is filled", NULL);
}

static void is_at(size_t event, size_t first_line, size_t last_line) {
  if (place.event != event || place.first_line != first_line || place.last_line != last_line) {
    fprintf(stderr, "test: an error is at event %zu, lines %zu to %zu, and not at event %zu, lines %zu to %zu\n", place.event,
            place.first_line, place.last_line, event, first_line, last_line);
    exit(1);
  }
}

static void rewriting(void) {
  static const char struck[] = "[{\"Start\": \"Paragraph\"}, {\"Text\": \"a\"}, {\"End\": \"Paragraph\"},"
                               " {\"Start\": \"Paragraph\"}, {\"Start\": \"Strikethrough\"}, {\"Text\": \"b\"},"
                               " {\"End\": \"Strikethrough\"}, {\"End\": \"Paragraph\"}]";
  rewrites("[\"Rule\"]", "*  *  *\n", 0, "*  *  *\n", 0);
  rewrites("[]", "", 0, "", 0);
  rewrites(struck, "a\n\n\nb\n", TOCMARK_GFM, "a\n\n\n~~b~~\n", 0);
  rewrites(struck, "a\n\n\nb\n", 0, "", TOCMARK_UNREPRESENTABLE);
  is_at(3, 4, 4);
  rewrites("[\"Rule\", 1]", "---\n", 0, "", TOCMARK_NOT_EVENTS);
  is_at(1, 0, 0);
  rewrites("[\"Rule\", {\"Start\": \"Paragraph\"}]", "---\n", 0, "", TOCMARK_UNEXPECTED_EVENT);
  is_at(1, 0, 0);
  rewrites("[\"Rule\"", "---\n", 0, "", TOCMARK_NOT_JSON);
  is_at(SIZE_MAX, 0, 0);
  rewrites("[\"Rule\"]", "\xFF", 0, "", TOCMARK_SOURCE_NOT_UTF8);
  is_at(SIZE_MAX, 0, 0);
  rewrites("[\"Rule\"]", "---\n", 1, "", TOCMARK_INVALID_OPTIONS);
  is_at(SIZE_MAX, 0, 0);
  struct tocmark_place smaller = {sizeof smaller - 1, 7, 8, 9};
  expect(tocmark_rewrite(NULL, 0, NULL, 0, 0, NULL, 0, &smaller, NULL, 0), TOCMARK_NOT_JSON, "no JSON");
  if (smaller.size != sizeof smaller - 1 || smaller.event != 7 || smaller.first_line != 8 || smaller.last_line != 9)
    wrong("a smaller place is filled", NULL);
  struct later_place larger = {{sizeof larger, 7, 8, 9}, 10};
  expect(tocmark_rewrite(NULL, 0, NULL, 0, 0, NULL, 0, &larger.known, NULL, 0), TOCMARK_NOT_JSON, "no JSON");
  if (larger.known.size != sizeof larger || larger.known.event != SIZE_MAX || larger.known.first_line != 0 || larger.more != 10)
    wrong("the place of a later header isn't filled", NULL);
  expect(tocmark_rewrite(NULL, 0, NULL, 0, 0, (const uint8_t *)"\xFF", 1, NULL, NULL, 0), TOCMARK_OPTIONS_NOT_UTF8,
         "options and no place");
}

/* Gives definitions of a source what a JSON text says, where what is wanted is a text, or an error's code. */
static void redefines(const char *json, const char *source, const char *wanted, ptrdiff_t code) {
  uint8_t out[100];
  place = (struct tocmark_place){sizeof place, 7, 8, 9};
  ptrdiff_t size = tocmark_redefine((const uint8_t *)json, strlen(json), (const uint8_t *)source, strlen(source), TOCMARK_GFM,
                                    &place, out, sizeof out);
  expect(size, code < 0 ? code : (ptrdiff_t)strlen(wanted), json);
  if (size >= 0 && memcmp(out, wanted, (size_t)size) != 0)
    wrong("definitions are changed otherwise", &(struct text){out, (size_t)size});
}

#define DEFINED(label, destination, start, end) \
  "{\"label\": \"" label "\", \"destination\": \"" destination "\", \"title\": \"\", \"range\": {\"start\": " #start ", \"end\": " #end "}}"

static void redefining(void) {
  static const char source[] = "[a]\n\n[a]: /b 'c'\n[d]: /e\n";
  redefines("[]", source, source, 0);
  redefines("[" DEFINED("d", "x y", 17, 24) "," DEFINED("a", "/b", 5, 16) "]", source, "[a]\n\n[a]: /b\n[d]: <x y>\n", 0);
  is_at(7, 8, 9);
  redefines("[" DEFINED("d", "/x", 17, 24) "," DEFINED("a", "/b", 5, 15) "]", source, "", TOCMARK_NO_DEFINITION);
  is_at(1, 0, 0);
  redefines("[" DEFINED("d", "/x", 17, 24) ", 1]", source, "", TOCMARK_NOT_DEFINITIONS);
  is_at(1, 0, 0);
  redefines("{}", source, "", TOCMARK_NOT_DEFINITIONS);
  is_at(SIZE_MAX, 0, 0);
  redefines("[", source, "", TOCMARK_NOT_JSON);
  redefines("\xFF", source, "", TOCMARK_NOT_UTF8);
  redefines("[]", "\xFF", "", TOCMARK_SOURCE_NOT_UTF8);
  /* Of two that name one definition, not both can be so. */
  redefines("[" DEFINED("d", "/x", 17, 24) "," DEFINED("d", "/y", 17, 24) "]", source, "", TOCMARK_CHANGED);
  is_at(SIZE_MAX, 4, 4);
  expect(tocmark_redefine(NULL, 0, NULL, 0, 0, NULL, NULL, 0), TOCMARK_NOT_JSON, "no JSON of definitions");
}

/* --- where writing goes wrong --- */

typedef ptrdiff_t writer(const uint8_t *, size_t, const uint8_t *, size_t, uint32_t, const uint8_t *, size_t,
                         struct tocmark_place *, uint8_t *, size_t);

/* Writes events over a source, where what is wanted is a length, or an error's code. */
static void writes_at(writer *write, const char *json, const char *source, ptrdiff_t wanted) {
  uint8_t out[100];
  place = (struct tocmark_place){sizeof place, 7, 8, 9};
  ptrdiff_t size = write((const uint8_t *)json, strlen(json), (const uint8_t *)source, strlen(source), 0, NULL, 0, &place, out,
                         sizeof out);
  expect(size, wanted, json);
  if (size >= 0)
    is_at(7, 8, 9);
}

static void places(void) {
  writer *const writers[] = {tocmark_write_json_at_, tocmark_write_checked_at_};
  for (size_t i = 0; i < 2; i++) {
    writes_at(writers[i], "[\"Rule\"]", "", 3);
    writes_at(writers[i], "[\"Rule\", 1]", "", TOCMARK_NOT_EVENTS);
    is_at(1, 0, 0);
    writes_at(writers[i], "[\"Rule\", {\"Start\": \"Paragraph\"}]", "", TOCMARK_UNEXPECTED_EVENT);
    is_at(1, 0, 0);
    writes_at(writers[i], "[\"Rule\", {\"Start\": \"Strikethrough\"}, {\"End\": \"Strikethrough\"}, \"Rule\"]", "",
           TOCMARK_UNREPRESENTABLE);
    is_at(1, 0, 0);
    writes_at(writers[i], "[[\"Rule\", null], [\"Rule\", {\"start\": 2, \"end\": 9}]]", "a\nb\n", TOCMARK_INVALID_SOURCE_RANGE);
    is_at(1, 2, 3);
    writes_at(writers[i], "[\"Rule\"", "", TOCMARK_NOT_JSON);
    is_at(SIZE_MAX, 0, 0);
    struct tocmark_place smaller = {sizeof smaller - 1, 7, 8, 9};
    expect(writers[i](NULL, 0, NULL, 0, 0, NULL, 0, &smaller, NULL, 0), TOCMARK_NOT_JSON, "no JSON");
    if (smaller.size != sizeof smaller - 1 || smaller.event != 7 || smaller.first_line != 8 || smaller.last_line != 9)
      wrong("a smaller place is filled", NULL);
    expect(writers[i](NULL, 0, NULL, 0, 0, (const uint8_t *)"\xFF", 1, NULL, NULL, 0), TOCMARK_OPTIONS_NOT_UTF8,
           "options and no place");
  }
  writes_at(tocmark_write_checked_at_, "[{\"Start\": {\"FootnoteDefinition\": \"1\"}}, {\"End\": \"FootnoteDefinition\"}]", "",
         TOCMARK_CHANGED);
  is_at(0, 0, 0);
}

/* --- packed events --- */

/* Writes packed events over a source, where what is wanted is a text, or an error's code. */
static void packs(const uint8_t *bytes, size_t size, const char *source, const char *wanted, ptrdiff_t code) {
  uint8_t out[100];
  place = (struct tocmark_place){sizeof place, 7, 8, 9};
  ptrdiff_t written = tocmark_write_packed_at(bytes, size, (const uint8_t *)source, strlen(source), TOCMARK_GFM, NULL, 0,
                                              &place, out, sizeof out);
  expect(written, code < 0 ? code : (ptrdiff_t)strlen(wanted), "packed events");
  if (written >= 0 && memcmp(out, wanted, (size_t)written) != 0)
    wrong("packed events are written as another text", &(struct text){out, (size_t)written});
  if (written >= 0)
    is_at(7, 8, 9);
}

#define PACKS(source, wanted, code, ...) \
  packs((const uint8_t[]){__VA_ARGS__}, sizeof((const uint8_t[]){__VA_ARGS__}), source, wanted, code)
#define NUMBER(n) n, 0, 0, 0, 0, 0, 0, 0

static void packed(void) {
  /* A paragraph: "hi ", and "you" in strong emphasis. */
  PACKS("", "hi **you**", 0, 0, 0, 0, 0, 6, NUMBER(3), 'h', 'i', ' ', 0, 0, 10, 0, 6, NUMBER(3), 'y', 'o', 'u', 0, 1, 10, 0, 1,
        0);
  /* A heading of the second level, and a link with a title in it. */
  PACKS("", "## [a](/b \"c\")", 0, 0, 0, 19, 2, 0, NUMBER(0), NUMBER(0), 0, 0, 17, 0, NUMBER(2), '/', 'b', NUMBER(1), 'c',
        NUMBER(0), 0, 6, NUMBER(1), 'a', 0, 1, 17, 0, 1, 19, 2);
  PACKS("* * *\n", "---", 0, 1, NUMBER(0), NUMBER(5), 4);
  packs(NULL, 0, "", "", 0);
  PACKS("", "", TOCMARK_NOT_EVENTS, 0, 4, 0, 13);
  is_at(1, 0, 0);
  PACKS("", "", TOCMARK_NOT_EVENTS, 0, 4, 0, 0, 0, 0, 6, NUMBER(1), 0xFF, 0, 1, 0);
  is_at(2, 0, 0);
  PACKS("", "", TOCMARK_NOT_EVENTS, 0, 6, NUMBER(2), 'a');
  is_at(0, 0, 0);
  PACKS("", "", TOCMARK_NOT_EVENTS, 0, 0, 16, NUMBER(255), 0);
  is_at(0, 0, 0);
  PACKS("", "", TOCMARK_UNEXPECTED_EVENT, 0, 4, 0, 1, 0);
  is_at(1, 0, 0);
  PACKS("a\nb\n", "", TOCMARK_INVALID_SOURCE_RANGE, 0, 4, 1, NUMBER(2), NUMBER(9), 4);
  is_at(1, 2, 3);
  PACKS("\xFF", "", TOCMARK_SOURCE_NOT_UTF8, 0, 4);
  is_at(SIZE_MAX, 0, 0);
  expect(tocmark_write_packed_at(NULL, 0, NULL, 0, 0, (const uint8_t *)"{", 1, NULL, NULL, 0), TOCMARK_OPTIONS_NOT_JSON,
         "options and no place");
}

/* --- events by Python's marshal.dumps --- */

/* Writes the events of these bytes over a source, where what is wanted is a text, or an error's code. */
static void dumps(const uint8_t *bytes, size_t size, const char *source, const char *wanted, ptrdiff_t code) {
  uint8_t out[100];
  place = (struct tocmark_place){sizeof place, 7, 8, 9};
  ptrdiff_t written = tocmark_write_marshal_at(bytes, size, (const uint8_t *)source, strlen(source), TOCMARK_GFM, NULL, 0,
                                               &place, out, sizeof out);
  expect(written, code < 0 ? code : (ptrdiff_t)strlen(wanted), "events by marshal.dumps");
  if (written >= 0 && memcmp(out, wanted, (size_t)written) != 0)
    wrong("events by marshal.dumps are written as another text", &(struct text){out, (size_t)written});
  if (written >= 0)
    is_at(7, 8, 9);
}

#define DUMPS(source, wanted, code, ...) \
  dumps((const uint8_t[]){__VA_ARGS__}, sizeof((const uint8_t[]){__VA_ARGS__}), source, wanted, code)
#define LENGTH(n) n, 0, 0, 0
#define RULE 'u', LENGTH(4), 'R', 'u', 'l', 'e'

static void dumped(void) {
  DUMPS("", "---", 0, '[', LENGTH(3), 'N', 'N', RULE);
  DUMPS("", "", 0, '[', LENGTH(0));
  /* {"Start": "Paragraph"}, {"Text": "hi"}, {"End": "Paragraph"} */
  DUMPS("hi\n", "hi", 0, '[', LENGTH(9), 'i', LENGTH(0), 'i', LENGTH(2), '{', 'u', LENGTH(5), 'S', 't', 'a', 'r', 't', 'u',
        LENGTH(9), 'P', 'a', 'r', 'a', 'g', 'r', 'a', 'p', 'h', '0', 'i', LENGTH(0), 'i', LENGTH(2), '{', 'u', LENGTH(4), 'T',
        'e', 'x', 't', 'u', LENGTH(2), 'h', 'i', '0', 'i', LENGTH(0), 'i', LENGTH(2), '{', 'u', LENGTH(3), 'E', 'n', 'd', 'u',
        LENGTH(9), 'P', 'a', 'r', 'a', 'g', 'r', 'a', 'p', 'h', '0');
  dumps(NULL, 0, "", "", TOCMARK_NOT_EVENTS);
  is_at(SIZE_MAX, 0, 0);
  DUMPS("", "", TOCMARK_NOT_EVENTS, '[', LENGTH(4), 'N', 'N', RULE, RULE);
  is_at(SIZE_MAX, 0, 0);
  DUMPS("", "", TOCMARK_NOT_EVENTS, '[', LENGTH(6), 'N', 'N', RULE, 'N', 'i', LENGTH(1), RULE);
  is_at(1, 0, 0);
  DUMPS("", "", TOCMARK_NOT_EVENTS, '[', LENGTH(255), 'N', 'N', 'u', LENGTH(1), 0xFF);
  is_at(0, 0, 0);
  DUMPS("", "", TOCMARK_NOT_EVENTS, '[', LENGTH(3), 'N', 'N', RULE, 'N');
  is_at(1, 0, 0);
  DUMPS("a\nb\n", "", TOCMARK_INVALID_SOURCE_RANGE, '[', LENGTH(6), 'N', 'N', RULE, 'i', LENGTH(2), 'i', LENGTH(9), RULE);
  is_at(1, 2, 3);
  DUMPS("\xFF", "", TOCMARK_SOURCE_NOT_UTF8, '[', LENGTH(0));
  is_at(SIZE_MAX, 0, 0);
  expect(tocmark_write_marshal_at(NULL, 0, NULL, 0, 0, (const uint8_t *)"{", 1, NULL, NULL, 0), TOCMARK_OPTIONS_NOT_JSON,
         "options and no place");
}

/* NULL is an empty text, a buffer without room, and the default style. */
static void nulls(void) {
  expect(tocmark_error_text(TOCMARK_OUT_OF_MEMORY, NULL, 0), 13, "the text of an error for no room");
  expect(tocmark_read_json(NULL, 0, TOCMARK_GFM, NULL, 0), 2, "no text");
  expect(tocmark_write_json((const uint8_t *)"[\"Rule\"]", 8, NULL, 0, 0, NULL, 0, NULL, 0), 3, "no source and no options");
  expect(tocmark_write_json(NULL, 0, NULL, 0, 0, NULL, 0, NULL, 0), TOCMARK_NOT_JSON, "no JSON");
  expect(tocmark_write_checked((const uint8_t *)"[]", 2, NULL, 0, 0, NULL, 0, NULL, 0), 0, "no events");
  expect(tocmark_format(NULL, 0, 0, NULL, NULL, 0), 0, "no text in no style");
  expect(tocmark_format((const uint8_t *)"+  a", 4, 0, NULL, NULL, 0), 5, "a text in no style");
  expect(tocmark_format_also((const uint8_t *)"+  a", 4, 0, NULL, 0, NULL, NULL, 0), 5, "a text under no other flags");
}

static ptrdiff_t formats(const char *text, struct tocmark_style style, const char *wanted) {
  uint8_t out[100];
  ptrdiff_t size = tocmark_format((const uint8_t *)text, strlen(text), TOCMARK_GFM, &style, out, sizeof out);
  if (size >= 0 && ((size_t)size != strlen(wanted) || memcmp(out, wanted, (size_t)size) != 0))
    wrong("another text in a style", &(struct text){out, (size_t)size});
  return size;
}

/* A table right below text is a table of its own to GFM, and text to CommonMark. */
static void other_syntaxes(void) {
  static const char text[] = "a\n|b|\n|-|\n";
  static const uint32_t also[] = {0};
  uint8_t out[100];
  ptrdiff_t size = tocmark_format((const uint8_t *)text, strlen(text), TOCMARK_GFM, NULL, out, sizeof out);
  if (size < 3 || memcmp(out, "a\n\n", 3) != 0)
    wrong("a table isn't parted from the text above it", NULL);
  size = tocmark_format_also((const uint8_t *)text, strlen(text), TOCMARK_GFM, also, 1, NULL, out, sizeof out);
  if (size != (ptrdiff_t)strlen(text) || memcmp(out, text, strlen(text)) != 0)
    wrong("a table leaves the paragraph that it is part of to CommonMark", NULL);
}

static void styles(void) {
  static const uint32_t size = sizeof(struct tocmark_style);
  struct tocmark_style style = {.size = size};
  formats("", style, "");
  expect(formats("*  a\n*  b", style, "*  a\n*  b\n"), 10, "the bullets of the source");
  style.bullet = '-';
  expect(formats("*  a\n*  b", style, "-  a\n-  b\n"), 10, "other bullets");
  expect(formats("1. a\n2. b", (struct tocmark_style){.size = size, .delimiter = ')', .numbering = 1}, "1) a\n1) b\n"), 10,
         "delimiters and numbers");
  expect(formats("*a* **b**", (struct tocmark_style){.size = size, .emphasis = '_', .strong = '_'}, "_a_ __b__\n"), 10,
         "markers");
  expect(formats("~~~\na\n~~~", (struct tocmark_style){.size = size, .fence = '`', .fence_length = 4}, "````\na\n````\n"), 12,
         "fences");
  expect(formats("a\\\nb\n\n* * *\n", (struct tocmark_style){.size = size, .hard_break = 2, .rule = 1}, "a  \nb\n\n* * *\n"), 13,
         "breaks");
  expect(formats("a\n===\n\n* * *\n", (struct tocmark_style){.size = size, .rule = 2}, "a\n===\n\n---\n"), 11, "headings");
  expect(formats("a\n===\n\n* * *\n", (struct tocmark_style){.size = size, .rule = 3}, "a\n===\n\n* * *\n"), 13,
         "headings and breaks");
  expect(formats("|ab|\n|-|\n", (struct tocmark_style){.size = size, .table_width = 1}, "| ab |\n| --- |\n"), 15, "tables");
  expect(formats("a\nb c\n", (struct tocmark_style){.size = size, .wrap = 3}, "a b\nc\n"), 6, "filled lines");
  expect(formats("a\nb\n", (struct tocmark_style){.size = size, .wrap = UINT32_MAX}, "a b\n"), 4, "joined lines");
  expect(formats("One two. Three\nfour.\n", (struct tocmark_style){.size = size, .wrap = UINT32_MAX - 1}, "One two.\nThree four.\n"), 21,
         "a line for each sentence");
  expect(formats("_a_ __b__\n", (struct tocmark_style){.size = size}, "_a_ __b__\n"), 10, "emphasis of the source");
  expect(formats("|ab|\n|-|\n", (struct tocmark_style){.size = size, .tables = 1}, "|ab|\n|-|\n"), 9, "tables of the source");
  expect(formats("-   a\n", (struct tocmark_style){.size = size, .list_indent = 1}, "- a\n"), 4, "indents by the marker");
  expect(formats("-   a\n", (struct tocmark_style){.size = size}, "-   a\n"), 6, "indents of the source");
  expect(formats("- a\n\n  b\n", (struct tocmark_style){.size = size, .list_indent = 4}, "-   a\n\n    b\n"), 13,
         "indented items");
  struct later_style later = {{.size = sizeof later, .bullet = '+'}, 1};
  uint8_t out[100];
  expect(tocmark_format((const uint8_t *)"* a", 3, 0, &later.known, out, sizeof out), 4, "the style of a later header");
  if (memcmp(out, "+ a\n", 4) != 0)
    wrong("another text in the style of a later header", NULL);
  expect(formats("\xFF", style, ""), TOCMARK_NOT_UTF8, "text that is formatted");
  struct tocmark_style wrongs[] = {{.size = 0},
                                   {.size = size - 4},
                                   {.size = size, .bullet = 'x'},
                                   {.size = size, .delimiter = ':'},
                                   {.size = size, .numbering = 3},
                                   {.size = size, .emphasis = '-'},
                                   {.size = size, .strong = 1},
                                   {.size = size, .fence = '"'},
                                   {.size = size, .hard_break = 3},
                                   {.size = size, .rule = 4},
                                   {.size = size, .list_indent = UINT32_MAX},
                                   {.size = size, .tables = 2}};
  for (size_t i = 0; i < sizeof wrongs / sizeof *wrongs; i++)
    expect(formats("a", wrongs[i], ""), TOCMARK_INVALID_STYLE, "a style");
}

/* Compares two texts, whose differences are to be this JSON. */
static ptrdiff_t compares(const char *old, const char *new, uint32_t flags, uint32_t allowed, const char *wanted) {
  uint8_t out[1000];
  ptrdiff_t size =
      tocmark_compare((const uint8_t *)old, strlen(old), (const uint8_t *)new, strlen(new), flags, allowed, out, sizeof out);
  if (size >= 0 && ((size_t)size != strlen(wanted) || memcmp(out, wanted, (size_t)size) != 0))
    wrong("other differences", &(struct text){out, (size_t)size});
  return size;
}

static void comparing(void) {
  static const char linked[] = "[a](/b)", defined[] = "[a][]\n\n[a]: /b", bare[] = "see http://a.b/c";
  static const char angled[] = "see <http://a.b/c>";
  expect(compares("", "", 0, 0, "[]"), 2, "two empty texts");
  expect(compares("*  a\n*  _b_", "- a\n- *b*\n", 0, 0, "[]"), 2, "another spelling");
  expect(compares("\xEF\xBB\xBF" "a", "a", 0, 0, "[]"), 2, "a byte order mark");
  static const char level[] = "[{\"kind\":\"level\",\"what\":\"heading\",\"old\":[2,2],\"new\":[1,1],\"was\":\"1\",\"is\":\"2\","
                              "\"message\":\"the heading's level \\\"1\\\" became \\\"2\\\"\"}]";
  expect(compares("\n# a", "## a", 0, 0, level), sizeof level - 1, "another level");
  expect(compares("# a", "## a", 0, TOCMARK_ALLOW_LEVELS, "[]"), 2, "a level that may differ");
  expect(compares("\n# a", "## a", 0, ~TOCMARK_ALLOW_LEVELS, level), sizeof level - 1, "a level that may not differ");
  expect(compares(linked, defined, 0, TOCMARK_ALLOW_UNRENDERED, "[]"), 2, "what no page shows");
  expect(compares(bare, angled, TOCMARK_GFM, TOCMARK_ALLOW_UNRENDERED | TOCMARK_BARE_LINKS, "[]"), 2, "a bare address");
  expect(compares("x@y.zz", "<x@y.zz>", 0, TOCMARK_BARE_LINKS, "[]"), 2, "a bare mail address");
  expect(tocmark_compare((const uint8_t *)bare, strlen(bare), (const uint8_t *)angled, strlen(angled), TOCMARK_GFM,
                         TOCMARK_ALLOW_UNRENDERED, NULL, 0) > 2,
         1, "a bare address that is text");
  expect(compares("a b", "a\nb", 0, TOCMARK_ALLOW_WRAP, "[]"), 2, "where lines break");
  expect(compares("~~a~~", "~~b~~", 0, TOCMARK_ALLOW_TEXT, "[]"), 2, "words");
  expect(tocmark_compare((const uint8_t *)"~~a~~", 5, (const uint8_t *)"a", 1, TOCMARK_GFM, TOCMARK_ALLOW_TEXT, NULL, 0) > 2, 1,
         "flags");
  expect(tocmark_compare((const uint8_t *)linked, strlen(linked), (const uint8_t *)defined, strlen(defined), 0, 0, NULL, 0) > 2,
         1, "how a link is spelled");
  expect(compares("\xFF", "a", 0, 0, ""), TOCMARK_NOT_UTF8, "the old text");
  expect(compares("a", "\xFF", 0, 0, ""), TOCMARK_NOT_UTF8, "the new text");
  expect(tocmark_compare(NULL, 0, NULL, 0, 0, 0, NULL, 0), 2, "no texts");
}

static int is_no_error(ptrdiff_t code) {
  static const char none[] = "no error of tocmark";
  uint8_t out[100];
  ptrdiff_t size = tocmark_error_text(code, out, sizeof out);
  return size == sizeof none - 1 && memcmp(out, none, sizeof none - 1) == 0;
}

/* The bytes for Python begin with 4 values and end with where the ranges end: the events of `---`. */
/* What a text has, in each form. */
static void lists(void) {
  typedef ptrdiff_t list(const uint8_t *, size_t, uint32_t, uint8_t *, size_t);
  static const char text[] = "# A [b](c)\n\n[d]: /e\n", words[] = "A b\n";
  static const char link[] = "[[{\"Start\":{\"Link\":{\"dest_url\":\"c\"";
  static const char definitions[] = "[{\"label\":\"d\",\"destination\":\"/e\",\"title\":\"\",\"range\":{\"start\":12,\"end\":19},"
                                    "\"destination_range\":{\"start\":17,\"end\":19},\"title_range\":{\"start\":19,\"end\":19},"
                                    "\"used\":false}]";
  static const char heading[] = "[[{\"Start\":{\"Heading\":";
  static const struct {
    list *call;
    const char *begin;
    int is_whole;
  } rows[] = {
      {tocmark_links, link, 0}, {tocmark_headings, heading, 0}, {tocmark_words, words, 1}, {tocmark_definitions, definitions, 1}};
  for (size_t at = 0; at < sizeof rows / sizeof *rows; at++) {
    uint8_t out[1000];
    size_t size = strlen(rows[at].begin);
    ptrdiff_t found = rows[at].call((const uint8_t *)text, strlen(text), TOCMARK_GFM, out, sizeof out);
    if (found < (ptrdiff_t)size || (rows[at].is_whole && found != (ptrdiff_t)size) || memcmp(out, rows[at].begin, size) != 0)
      wrong("a list is another one", &(struct text){out, found < 0 ? 0 : (size_t)found});
    expect(rows[at].call((const uint8_t *)text, strlen(text), TOCMARK_GFM, out, 0), found, "a list for which there is no room");
    expect(rows[at].call((const uint8_t *)"\xFF", 1, TOCMARK_GFM, out, sizeof out), TOCMARK_NOT_UTF8, "a list of no text");
  }
}

static void marshals(void) {
  static const uint8_t rule[] = {'[', 1, 0, 0, 0, 'r', 11, 0, 0, 0, '[', 1, 0, 0, 0, 'i', 0, 0, 0, 0, '[', 1, 0, 0, 0, 'i', 3, 0, 0, 0};
  uint8_t out[1000];
  ptrdiff_t size = tocmark_read_marshal((const uint8_t *)"---", 3, 0, out, sizeof out);
  if (size < 100 || size > 1000 || out[0] != ')' || out[1] != 4 ||
      memcmp(out + size - sizeof rule, rule, sizeof rule) != 0)
    wrong("bytes for Python", NULL);
}

static void errors(void) {
  static const char rule[] = "[\"Rule\"]";
  uint8_t out[100];
  expect(tocmark_version(), TOCMARK_VERSION, "the version");
  expect(tocmark_read_json((const uint8_t *)"\xFF", 1, 0, out, sizeof out), TOCMARK_NOT_UTF8, "text");
  expect(writes("\xFF", "", 0, ""), TOCMARK_NOT_UTF8, "JSON");
  expect(writes(rule, "\xFF", 0, ""), TOCMARK_SOURCE_NOT_UTF8, "source");
  expect(writes(rule, "", 0, "\xFF"), TOCMARK_OPTIONS_NOT_UTF8, "options");
  expect(writes("[", "", 0, ""), TOCMARK_NOT_JSON, "an array that has no end");
  expect(writes("[1]", "", 0, ""), TOCMARK_NOT_EVENTS, "a number");
  expect(writes("1", "", 0, ""), TOCMARK_NOT_EVENTS, "no array");
  expect(writes(rule, "", 0, "{"), TOCMARK_OPTIONS_NOT_JSON, "an object that has no end");
  expect(writes(rule, "", 0, "[]"), TOCMARK_NOT_OPTIONS, "no object");
  expect(writes(rule, "", 0, "{\"a\": 1}"), TOCMARK_NOT_OPTIONS, "an unknown key");
  expect(writes(rule, "", 1, ""), TOCMARK_INVALID_OPTIONS, "an unknown flag");
  expect(writes("[{\"End\": \"Paragraph\"}]", "", 0, ""), TOCMARK_UNEXPECTED_EVENT, "an End alone");
  expect(writes("[{\"Start\": \"Paragraph\"}]", "", 0, ""), TOCMARK_UNEXPECTED_EVENT, "a Start alone");
  expect(writes("[{\"Start\": \"Paragraph\"}, {\"Start\": \"Strikethrough\"}, {\"Text\": \"a\"}, {\"End\": \"Strikethrough\"},"
                " {\"End\": \"Paragraph\"}]",
                "", 0, ""),
         TOCMARK_UNREPRESENTABLE, "strikethrough that isn't read");
  expect(writes("[[\"Rule\", {\"start\": 2, \"end\": 9}]]", "---", 0, ""), TOCMARK_INVALID_SOURCE_RANGE, "a range");
  expect(writes("[[\"Rule\", {\"start\": 2, \"end\": 9}]]", "", 0, ""), 3, "a range of no source");
  expect(writes("[]", "", 0, ""), 0, "no events");
  /* A reference to a footnote, beside emphasis, with the definition after it. */
  static const char reference[] = "[{\"Start\": \"Paragraph\"}, {\"Start\": \"Emphasis\"}, {\"Text\": \"a\"},"
                                  " {\"End\": \"Emphasis\"}, {\"FootnoteReference\": \"1\"}, {\"End\": \"Paragraph\"},"
                                  " {\"Start\": {\"FootnoteDefinition\": \"1\"}}, {\"Start\": \"Paragraph\"},"
                                  " {\"Text\": \"b\"}, {\"End\": \"Paragraph\"}, {\"End\": \"FootnoteDefinition\"}]";
  expect(writes(reference, "", TOCMARK_GFM, ""), 16, "a reference to a footnote");
  expect(checks(reference), 16, "a reference to a footnote that is read again");
  /* A list after an empty definition of a footnote falls into it. */
  static const char note[] = "[{\"Start\": {\"FootnoteDefinition\": \"1\"}}, {\"End\": \"FootnoteDefinition\"},"
                             " {\"Start\": {\"List\": null}}, {\"Start\": \"Item\"}, {\"Text\": \"a\"},"
                             " {\"End\": \"Item\"}, {\"End\": {\"List\": false}}]";
  if (writes(note, "", TOCMARK_GFM, "") < 0)
    wrong("a list behind a definition isn't written", NULL);
  expect(checks(note), TOCMARK_CHANGED, "a list behind a definition");
  expect(checks(rule), 3, "a rule that is read again");
  expect(checks("[1]"), TOCMARK_NOT_EVENTS, "a number that is read again");
  expect(tocmark_read_json((const uint8_t *)"", 0, 0, out, sizeof out), 2, "an empty text");
  expect(tocmark_read_marshal((const uint8_t *)"\xFF", 1, 0, out, sizeof out), TOCMARK_NOT_UTF8, "a text for Python");
  marshals();
  lists();
  expect(tocmark_error_text(TOCMARK_OUT_OF_MEMORY, out, sizeof out), 13, "the text of an error");
  if (memcmp(out, "out of memory", 13) != 0)
    wrong("the text of an error", NULL);
  for (ptrdiff_t code = -19; code < 0; code++)
    if (is_no_error(code))
      wrong("an error has no text", NULL);
  if (!is_no_error(-20) || !is_no_error(0) || !is_no_error(1) || !is_no_error(PTRDIFF_MIN) || !is_no_error(PTRDIFF_MAX))
    wrong("what is no error has a text", NULL);
}

/* Each allocation in turn is refused: the answer is that memory ran out, and nothing is written. */
static void refusals(void) {
#ifndef SHARED
  static const char markdown[] = "# A &copy; *b*\n\n* ~~c~~ [d](/e)\n  > f\n\n| g |\n|---|\n| h |\n";
  static const char changed[] = "## A &copy; *b*\n\n* ~~c~~ [d](/f)\n  > \"g\"\n\n[h]: /i\n";
  struct text text = {(uint8_t *)markdown, sizeof markdown - 1}, other = {(uint8_t *)changed, sizeof changed - 1}, json;
  answer(&(struct call){&text, NULL, "", TOCMARK_GFM, NULL, WRITES}, &json);
  struct call calls[] = {{&text, NULL, "", TOCMARK_GFM, NULL, WRITES},
                         {&json, &text, "{\"list_token\": \"-\"}", TOCMARK_GFM, NULL, WRITES},
                         {&text, NULL, "", TOCMARK_GFM, &hyphens, WRITES},
                         {&json, &text, "", TOCMARK_GFM, NULL, REWRITES},
                         {&other, &text, "", TOCMARK_GFM, NULL, COMPARES}};
  for (size_t i = 0; i < sizeof calls / sizeof *calls; i++) {
    /* The last call finds another destination of the link. */
    for (size_t j = 0; i == 3 && j + 3 < json.size; j++)
      if (memcmp(&json.bytes[j], "\"/e\"", 4) == 0)
        json.bytes[j + 2] = 'f';
    static uint8_t out[LONGEST];
    ptrdiff_t wanted = made(&calls[i], out, sizeof out), code = TOCMARK_OUT_OF_MEMORY;
    for (long at = 0; code == TOCMARK_OUT_OF_MEMORY; at++) {
      memset(out, 0xA5, sizeof out);
      allowed = at;
      code = made(&calls[i], out, sizeof out);
      if (allowed >= 0 && code != wanted)
        wrong("an error where no memory was refused", &text);
      allowed = -1;
      for (size_t j = 0; code < 0 && j < sizeof out; j++)
        if (out[j] != 0xA5)
          wrong("a byte is written where memory ran out", &text);
    }
    expect(code, wanted, "the answer where memory is there");
  }
  free(json.bytes);
#endif
}

/* --- the texts --- */

static unsigned hexadecimal(const char *at) {
  char digits[5] = {at[0], at[1], at[2], at[3], 0};
  return (unsigned)strtoul(digits, NULL, 16);
}

/* The text of a JSON string, whose escapes of numbers are below U+0800. */
static struct text string(const char *at) {
  static const char names[] = "btnfr", values[] = "\b\t\n\f\r";
  struct text text = {memory(strlen(at)), 0};
  for (at++; *at != '"' && *at != 0; at++) {
    if (*at != '\\') {
      text.bytes[text.size++] = (uint8_t)*at;
      continue;
    }
    const char *name = strchr(names, *++at);
    unsigned code = *at == 'u' ? hexadecimal(at + 1) : name ? (unsigned)values[name - names] : (unsigned)*at;
    if (*at == 'u')
      at += 4;
    if (code >= 0x80) {
      text.bytes[text.size++] = (uint8_t)(0xC0 | code >> 6);
      code = 0x80 | (code & 0x3F);
    }
    text.bytes[text.size++] = (uint8_t)code;
  }
  return text;
}

int main(void) {
  static char line[LONGEST];
  texts = memory(4000 * sizeof *texts);
  while (count < 652 && fgets(line, sizeof line, stdin) != NULL)
    if (line[0] == '"')
      texts[count++] = string(line);
  if (count != 652)
    wrong("652 texts are wanted on standard input", NULL);
  errors();
  rewriting();
  redefining();
  places();
  packed();
  dumped();
  nulls();
  styles();
  other_syntaxes();
  comparing();
  refusals();
  pthread_t threads[2];
  uint64_t sums[2];
  for (size_t i = 0; i < 2; i++)
    if (pthread_create(&threads[i], NULL, run, &sums[i]) != 0)
      wrong("no thread", NULL);
  for (size_t i = 0; i < 2; i++)
    pthread_join(threads[i], NULL);
  if (sums[0] != sums[1])
    wrong("two threads have other answers", NULL);
  for (size_t i = 0; i < count; i++)
    free(texts[i].bytes);
  free(texts);
  printf("%zu texts and %d mutated ones, by two threads: nothing is wrong\n", count, MUTATIONS);
  return 0;
}
