/* tocmark: parses Markdown to events as JSON, writes or rewrites Markdown from such events, and formats and compares Markdown.
 *
 * Buffers. The caller owns all memory. A function reads the texts that it gets, writes into the buffer that it is lent (`out`,
 * `out_len` bytes), and keeps neither. It frees all memory that it allocates before it returns.
 *
 * Texts. A text is a pointer and a length in bytes. It needs no NUL byte at its end. A pointer may be NULL if its length is 0:
 * then the text is empty, or the buffer has no room. A length is below PTRDIFF_MAX. `out` overlaps nothing that is read.
 * Several threads may read one text at a time.
 *
 * Results. A number of 0 or more is the length of the result in bytes. If it is at most `out_len`, the result is in `out`, as
 * UTF-8 without a NUL byte at its end, and the bytes after it are unchanged. If it is more, nothing is written: call again
 * with a larger buffer. A negative number is an error below, and nothing is written. A call with the same texts has the same
 * result each time, except for TOCMARK_OUT_OF_MEMORY.
 *
 * Threads. Several threads may call at a time: calls share malloc, realloc and free, and nothing else. Don't call from a signal
 * handler, or in the forked child of a process with threads. No function ends the process, waits, opens a file or prints.
 *
 * The library needs Linux on x86-64, and a processor of the level x86-64-v2 (nearly all since 2009).
 */
#ifndef TOCMARK_H
#define TOCMARK_H

#include <stddef.h>
#include <stdint.h>

#ifdef __cplusplus
extern "C" {
#endif

/* The version of this header, in the form of tocmark_version(). */
#define TOCMARK_VERSION 0x000100u

/* Extensions of Markdown, as bits of `flags`; 0 is CommonMark 0.31.2. They are the bits of pulldown-cmark 0.13. Other bits
 * don't change what is parsed, and nothing is written under them (TOCMARK_INVALID_OPTIONS). */
#define TOCMARK_TABLES (1u << 1)
#define TOCMARK_FOOTNOTES (1u << 2)
#define TOCMARK_STRIKETHROUGH (1u << 3)
#define TOCMARK_TASKLISTS (1u << 4)
#define TOCMARK_HEADING_ATTRIBUTES (1u << 6)
#define TOCMARK_YAML_METADATA (1u << 7)
#define TOCMARK_PLUSES_METADATA (1u << 8)
#define TOCMARK_MATH (1u << 10)
#define TOCMARK_GFM_QUOTES (1u << 11)
#define TOCMARK_DEFINITION_LIST (1u << 12)
#define TOCMARK_SUPERSCRIPT (1u << 13)
#define TOCMARK_SUBSCRIPT (1u << 14)

/* GitHub's Markdown with front matter, as `gfm` of the programs. Bare web addresses aren't read as links. */
#define TOCMARK_GFM \
  (TOCMARK_TABLES | TOCMARK_FOOTNOTES | TOCMARK_STRIKETHROUGH | TOCMARK_TASKLISTS | TOCMARK_YAML_METADATA | \
   TOCMARK_PLUSES_METADATA | TOCMARK_GFM_QUOTES)

enum tocmark_error {
  TOCMARK_OUT_OF_MEMORY = -1,         /* malloc or realloc returned NULL; that causes no other error */
  TOCMARK_NOT_UTF8 = -2,              /* the text or the JSON isn't UTF-8 */
  TOCMARK_SOURCE_NOT_UTF8 = -3,       /* the source isn't UTF-8 */
  TOCMARK_OPTIONS_NOT_UTF8 = -4,      /* the options aren't UTF-8 */
  TOCMARK_NOT_JSON = -5,              /* the text isn't JSON, or is nested deeper than 127 */
  TOCMARK_NOT_EVENTS = -6,            /* its value, or the bytes, aren't those of events, with ranges or without */
  TOCMARK_OPTIONS_NOT_JSON = -7,      /* the options aren't JSON, or are nested deeper than 127 */
  TOCMARK_NOT_OPTIONS = -8,           /* their value isn't that of options */
  TOCMARK_INVALID_OPTIONS = -9,       /* nothing can be written under these options and flags */
  TOCMARK_UNEXPECTED_EVENT = -10,     /* an End has no matching Start, a container is open at the end, or an event can't be
                                         at its place */
  TOCMARK_UNREPRESENTABLE = -11,      /* no spelling of a block parses back to its events */
  TOCMARK_INVALID_SOURCE_RANGE = -12, /* a range is reversed, past the end of the source, or not between characters */
  TOCMARK_FINISHED = -13,             /* events after the end; these functions never return it */
  TOCMARK_FAILED = -14,               /* a call after an error; these functions never return it */
  TOCMARK_INVALID_STYLE = -15,        /* a style is too small, or has a number that means nothing */
  TOCMARK_CHANGED = -16,              /* the text would parse to other events */
  TOCMARK_TOO_LONG = -17,             /* the bytes for Python would be more than 2,147,483,647 */
  TOCMARK_NOT_DEFINITIONS = -18,      /* the JSON isn't that of definitions of links */
  TOCMARK_NO_DEFINITION = -19         /* a definition is none of the source */
};

/* Returns the version: 65,536 times the first number, 256 times the second, and the third. */
uint32_t tocmark_version(void);

/* Writes the English text of an error's code, such as "out of memory". Any other number has "no error of tocmark". */
ptrdiff_t tocmark_error_text(ptrdiff_t code, uint8_t *out, size_t out_len);

/* Parses Markdown, and writes its events as JSON: an array of [event, {"start": .., "end": ..}]. Ranges count bytes of the
 * text. A byte order mark at the front is no text: what follows it is parsed, and ranges count the mark's bytes. This holds for
 * all functions that parse a text. Errors: TOCMARK_OUT_OF_MEMORY, TOCMARK_NOT_UTF8. */
ptrdiff_t tocmark_read_json(const uint8_t *text, size_t text_len, uint32_t flags, uint8_t *out, size_t out_len);

/* Parses Markdown, and writes the bytes of which Python's marshal.loads makes a tuple: the names of the form; a list of the
 * events that the JSON has; and two lists of numbers, where the events' ranges begin and end. Python 3.4 to 3.14 read them.
 * Errors: TOCMARK_OUT_OF_MEMORY, TOCMARK_NOT_UTF8, TOCMARK_TOO_LONG. */
ptrdiff_t tocmark_read_marshal(const uint8_t *text, size_t text_len, uint32_t flags, uint8_t *out, size_t out_len);

/* These parse Markdown, and write what it has. Errors: TOCMARK_OUT_OF_MEMORY, TOCMARK_NOT_UTF8.
 *
 * tocmark_links: the events of links and images, in the form of tocmark_read_json: a link's Start, what is in it, and its End. An
 * image in a link is among the events of that link.
 * tocmark_headings: the events of headings, in the same form.
 * tocmark_words: the text without markup: what texts, code and mathematics say. Each line and each block begins on a line of its
 * own. Front matter and HTML say nothing.
 * tocmark_definitions: the definitions of links, in their order, as a JSON array of {"label": .., "destination": .., "title": ..,
 * "range": {"start": .., "end": ..}, "destination_range": .., "title_range": .., "used": ..}. Ranges count bytes of the text;
 * title_range is empty without a title. "used" is true if a link or an image leads to the definition: of several with one label
 * the first counts. */
ptrdiff_t tocmark_links(const uint8_t *text, size_t text_len, uint32_t flags, uint8_t *out, size_t out_len);
ptrdiff_t tocmark_headings(const uint8_t *text, size_t text_len, uint32_t flags, uint8_t *out, size_t out_len);
ptrdiff_t tocmark_words(const uint8_t *text, size_t text_len, uint32_t flags, uint8_t *out, size_t out_len);
ptrdiff_t tocmark_definitions(const uint8_t *text, size_t text_len, uint32_t flags, uint8_t *out, size_t out_len);

/* Writes the Markdown of events as JSON: an array of events, or of [event, range] or [event, null]. All blocks get one layout;
 * tocmark_rewrite keeps the layout of a source.
 *
 * source: the text that the ranges refer to. Texts keep its spelling if that parses back. Without a source, ranges are dropped.
 * flags: the extensions under which the result has to parse back.
 * options: a JSON object, such as {"list_token": "-"}. Without options, the default ones are used.
 *
 * Errors: all but TOCMARK_FINISHED, TOCMARK_FAILED, TOCMARK_INVALID_STYLE, TOCMARK_CHANGED, TOCMARK_TOO_LONG,
 * TOCMARK_NOT_DEFINITIONS and TOCMARK_NO_DEFINITION. If there are several, the result is the first in this order: TOCMARK_NOT_UTF8, TOCMARK_SOURCE_NOT_UTF8, TOCMARK_OPTIONS_NOT_UTF8, those of the
 * options, those of the JSON, those of the events. */
ptrdiff_t tocmark_write_json(const uint8_t *json, size_t json_len, const uint8_t *source, size_t source_len, uint32_t flags,
                             const uint8_t *options, size_t options_len, uint8_t *out, size_t out_len);

/* Does what tocmark_write_json does, parses the result as a whole, and refuses it (TOCMARK_CHANGED) unless it has just these
 * events. Texts side by side count as one. Use this one unless time matters more: of some lists, the blocks that
 * tocmark_write_json writes one by one are read otherwise together. */
ptrdiff_t tocmark_write_checked(const uint8_t *json, size_t json_len, const uint8_t *source, size_t source_len,
                                uint32_t flags, const uint8_t *options, size_t options_len, uint8_t *out, size_t out_len);

/* Where an error is: struct tocmark_place place = {sizeof place, 0, 0, 0}; */
struct tocmark_place {
  uint32_t size;     /* sizeof(struct tocmark_place); a smaller struct is left alone */
  size_t event;      /* the number of the event, counted from 0; SIZE_MAX if it isn't known */
  size_t first_line; /* the first line of the source that is concerned, counted from 1; 0 if it isn't known */
  size_t last_line;  /* the last one */
};

/* The same two functions, which also say where an error is. If a block is refused, `event` is its first event, and the lines
 * are those of this event's range in the source. For TOCMARK_NOT_EVENTS, `event` is the first element that is no event, and for
 * TOCMARK_CHANGED the first one that the result doesn't have, or the number of all events if others follow them.
 *
 * where: NULL, or what an error fills. */
ptrdiff_t tocmark_write_json_at(const uint8_t *json, size_t json_len, const uint8_t *source, size_t source_len,
                                uint32_t flags, const uint8_t *options, size_t options_len, struct tocmark_place *where,
                                uint8_t *out, size_t out_len);
ptrdiff_t tocmark_write_checked_at(const uint8_t *json, size_t json_len, const uint8_t *source, size_t source_len,
                                   uint32_t flags, const uint8_t *options, size_t options_len,
                                   struct tocmark_place *where, uint8_t *out, size_t out_len);

/* Packed events: bytes that take less time than JSON. The events are one after the other, each after its range.
 *
 *   number      8 bytes, the lowest first
 *   text        its length in bytes, a number, and its bytes, UTF-8
 *   list        its length, a number, and its elements
 *   X?          0; or 1, and X
 *   range       two numbers: its first byte in the source, and the one after its last
 *   truth       0 or 1
 *
 *   event       range?, and one of
 *     0 Start: a container's byte, and its parts       1 End: a container's byte, and its part, if it has one
 *     2 SoftBreak    3 HardBreak    4 Rule             5 TaskListMarker: truth, 1 if it is checked
 *     6 Text    7 Code    8 InlineMath    9 DisplayMath    10 Html    11 InlineHtml    12 FootnoteReference: a text each
 *
 *   container, without parts
 *     0 Paragraph         1 HtmlBlock              2 Item         3 DefinitionList      4 DefinitionListTitle
 *     5 DefinitionListDefinition    6 TableHead    7 TableRow     8 TableCell           9 Emphasis
 *     10 Strong           11 Strikethrough         12 Superscript                       13 Subscript
 *   container, with parts in a Start alone
 *     14 CodeBlock: 0 if it is indented; or 1, and the info string, a text              15 FootnoteDefinition: label, a text
 *     16 Table: a list of alignments, a byte each: 0 none, 1 left, 2 center, 3 right
 *     17 Link, 18 Image: the type, a byte, and three texts: destination, title and id
 *       type: 0 Inline, 1 Reference, 2 ReferenceUnknown, 3 Collapsed, 4 CollapsedUnknown, 5 Shortcut, 6 ShortcutUnknown,
 *       7 Autolink, 8 Email, 9 WikiLink, 10 WikiLink with a pothole
 *   container, with parts in both
 *     19 Heading: the level, a byte from 1 to 6; and in a Start text? for the id, a list of texts for the classes, and a list
 *        of attributes, each a text and text? for its value
 *     20 BlockQuote: kind?, a byte: 0 Note, 1 Tip, 2 Important, 3 Warning, 4 Caution
 *     21 List: in a Start number? for its first number; in an End truth, 1 if it is ordered
 *     22 MetadataBlock: a byte: 0 between lines of ---, 1 between lines of +++
 *
 * The Text "hi" without a range: {0, 6, 2, 0, 0, 0, 0, 0, 0, 0, 'h', 'i'}. */

/* Does what tocmark_write_json_at does, with packed events.
 *
 * Errors: those of tocmark_write_json, except for TOCMARK_NOT_UTF8 and TOCMARK_NOT_JSON. TOCMARK_NOT_EVENTS means that no event
 * begins after the first `event` ones, such as one with a text that isn't UTF-8. */
ptrdiff_t tocmark_write_packed_at(const uint8_t *packed, size_t packed_len, const uint8_t *source, size_t source_len,
                                  uint32_t flags, const uint8_t *options, size_t options_len, struct tocmark_place *where,
                                  uint8_t *out, size_t out_len);

/* Does what tocmark_write_json_at does, with the bytes that Python's marshal.dumps(values, 2) makes of a list. It has three
 * values for each event: where its range begins and ends, or None twice, and the event as json.loads makes it. Numbers are
 * below 2^31, and the list ends with the bytes.
 *
 * Errors: those of tocmark_write_packed_at. TOCMARK_NOT_EVENTS has no `event` if the bytes begin with no such list. */
ptrdiff_t tocmark_write_marshal_at(const uint8_t *bytes, size_t bytes_len, const uint8_t *source, size_t source_len,
                                   uint32_t flags, const uint8_t *options, size_t options_len, struct tocmark_place *where,
                                   uint8_t *out, size_t out_len);

/* Replaces the events of a source by others: all lines whose events stay are kept byte for byte, and the result parses to just
 * the new events. Texts side by side count as one. If the events are those of the source, the result is the source. A byte order
 * mark at the front of the source stays there.
 *
 * json, flags, options: as of tocmark_write_json. The events need no ranges. The options concern new blocks alone.
 * where: NULL, or what an error fills.
 *
 * Errors: those of tocmark_write_checked, in the same order. */
ptrdiff_t tocmark_rewrite(const uint8_t *json, size_t json_len, const uint8_t *source, size_t source_len, uint32_t flags,
                          const uint8_t *options, size_t options_len, struct tocmark_place *where, uint8_t *out,
                          size_t out_len);

/* Gives definitions of links of a source other destinations and titles. Those not given stay. Links by the label of a changed
 * definition follow, all else parses as before, and all other bytes stay. A byte order mark at the front stays there.
 *
 * json: an array as tocmark_definitions writes it for the source, with other values of "destination" and "title". An element is
 * named by its "label" and its "range"; other keys than these four aren't read.
 * where: NULL, or what an error fills. `event` is the number of the element, counted from 0. TOCMARK_CHANGED has the line of a
 * definition in place of it: no text was found that has this definition and else parses as before.
 *
 * Errors: TOCMARK_OUT_OF_MEMORY, TOCMARK_NOT_UTF8, TOCMARK_SOURCE_NOT_UTF8, TOCMARK_NOT_JSON, TOCMARK_NOT_DEFINITIONS,
 * TOCMARK_NO_DEFINITION, TOCMARK_CHANGED. */
ptrdiff_t tocmark_redefine(const uint8_t *json, size_t json_len, const uint8_t *source, size_t source_len, uint32_t flags,
                           struct tocmark_place *where, uint8_t *out, size_t out_len);

/* The style of a formatted text. A character is its own number, and 0 is the default:
 * struct tocmark_style style = {.size = sizeof style, .bullet = '-'};
 * As --look source of tocmark-format: {.size = sizeof style, .rule = 3, .tables = 1}. As --look one:
 * {.size = sizeof style, .bullet = '-', .delimiter = '.', .numbering = 2, .emphasis = '*', .strong = '*', .fence = '`',
 * .hard_break = 1, .list_indent = 1}. */
struct tocmark_style {
  uint32_t size;         /* sizeof(struct tocmark_style) */
  uint32_t bullet;       /* '*', '-' or '+'; 0: as in the source */
  uint32_t delimiter;    /* after an item's number, '.' or ')'; 0: as in the source */
  uint32_t numbering;    /* 0: as in the source; 1: all numbers are the first; 2: they count up */
  uint32_t emphasis;     /* '*' or '_'; 0: as in the source */
  uint32_t strong;       /* '*' or '_', which is written twice; 0: as in the source */
  uint32_t fence;        /* '`' or '~'; 0: as in the source */
  uint32_t fence_length; /* minimal length of a fence; below 3 means 3, above 1,000 means 1,000 */
  uint32_t hard_break;   /* a line break: 0: as in the source; 1: a backslash; 2: two spaces */
  uint32_t rule;         /* a sum: 1: thematic breaks as in the source, and not ---; 2: so are headings of one line, and not
                          * after # */
  uint32_t table_width;  /* tables are padded up to this many columns, and wider ones if they are aligned; 0: up to 120 */
  uint32_t wrap;         /* lines of paragraphs: 0: as in the source; UINT32_MAX: joined; UINT32_MAX - 1: one for each sentence;
                          * else filled up to this many columns */
  uint32_t list_indent;  /* columns before the content of items: 0: as in the source; 1: as many as the marker takes; 4: four */
  uint32_t tables;       /* tables: 0: aligned; 1: rows as in the source */
};

/* Formats Markdown. The result parses to the same events under these flags; texts side by side count as one. If `wrap` isn't 0,
 * a soft line break counts as a space, and so does each run of white space. The definitions of links are the same, too. A block
 * that would parse otherwise keeps its lines. The letters of both texts are the same, whatever parses them. A byte order mark at
 * the front stays there and isn't parsed. If `style` is NULL, all parts of it are the default.
 *
 * Errors: TOCMARK_NOT_UTF8, TOCMARK_INVALID_STYLE, and TOCMARK_OUT_OF_MEMORY. */
ptrdiff_t tocmark_format(const uint8_t *text, size_t text_len, uint32_t flags, const struct tocmark_style *style, uint8_t *out,
                         size_t out_len);

/* Formats as tocmark_format does, and the result also has the same blocks under each of the flags in `also`, of which there
 * are also_len. For CommonMark, 0, a table right below text is part of that paragraph, so it stays there.
 *
 * Errors: those of tocmark_format. */
ptrdiff_t tocmark_format_also(const uint8_t *text, size_t text_len, uint32_t flags, const uint32_t *also, size_t also_len,
                              const struct tocmark_style *style, uint8_t *out, size_t out_len);

/* What may differ between texts that say the same, as bits of `allowed`. */
#define TOCMARK_ALLOW_WRAP (1u << 0)          /* white space in texts, and where lines break */
#define TOCMARK_ALLOW_TEXT (1u << 1)          /* the words of texts */
#define TOCMARK_ALLOW_DESTINATIONS (1u << 2)  /* where links and images lead */
#define TOCMARK_ALLOW_TITLES (1u << 3)        /* titles of links and images */
#define TOCMARK_ALLOW_LABELS (1u << 4)        /* labels, and how links are spelled */
#define TOCMARK_ALLOW_FENCES (1u << 5)        /* how code is fenced or indented; a last line feed */
#define TOCMARK_ALLOW_LEVELS (1u << 6)        /* levels of headings */
#define TOCMARK_ALLOW_NUMBERS (1u << 7)       /* first numbers of lists */
#define TOCMARK_ALLOW_CODE (1u << 8)          /* code and math */
#define TOCMARK_ALLOW_INFO (1u << 9)          /* info strings of fenced code */
#define TOCMARK_ALLOW_HTML (1u << 10)         /* HTML */
#define TOCMARK_ALLOW_FRONT_MATTER (1u << 11) /* what front matter says */
#define TOCMARK_ALLOW_DEFINITIONS (1u << 12)  /* link definitions */

/* What no page shows: how links are spelled and defined, whether code is fenced or indented, and whether code or HTML at the end
 * lacks its last line feed. */
#define TOCMARK_ALLOW_UNRENDERED (TOCMARK_ALLOW_LABELS | TOCMARK_ALLOW_FENCES | TOCMARK_ALLOW_DEFINITIONS)

/* Another bit of `allowed`: web and mail addresses in texts are links, as GitHub shows them. With TOCMARK_GFM and
 * TOCMARK_ALLOW_UNRENDERED | TOCMARK_BARE_LINKS, texts are compared as tocmark-compare does. CommonMark has no such links. */
#define TOCMARK_BARE_LINKS (1u << 13)

/* Compares two texts by what they say under these flags, and writes a JSON array of what differs. The array is [] exactly if both
 * texts parse to the same events and define the same links, but for what may differ; texts side by side count as one. A byte
 * order mark at the front isn't parsed. Other bits of `allowed` don't count. Each difference is an object:
 *
 *   kind       "text", "destination", "title", "label", "level", "number", "code", "info", "html", "front-matter",
 *              "definition", "removed" (only the old text has it), "added" (only the new text has it), or "structure"
 *   what       what differs, in words, such as "link"
 *   old, new   its first and its last line in each text, counted from 1
 *   was, is    what each text says, as far as it differs
 *   message    the difference in one phrase
 *
 * Errors: TOCMARK_NOT_UTF8 (one of the texts), and TOCMARK_OUT_OF_MEMORY. */
ptrdiff_t tocmark_compare(const uint8_t *old_text, size_t old_len, const uint8_t *new_text, size_t new_len, uint32_t flags,
                          uint32_t allowed, uint8_t *out, size_t out_len);

/* The functions in the library take no NULL. So each name above stands for one of the following, which replaces NULL. A program
 * that calls the library without this header passes other pointers. */
static inline const uint8_t *tocmark_text_(const uint8_t *text) {
  static const uint8_t none = 0;
  return text ? text : &none;
}

static inline uint8_t *tocmark_room_(uint8_t *out) {
  static uint8_t none = 0; /* never written, since its length is 0 */
  return out ? out : &none;
}

static inline ptrdiff_t tocmark_error_text_(ptrdiff_t code, uint8_t *out, size_t out_len) {
  return tocmark_error_text(code, tocmark_room_(out), out_len);
}

static inline ptrdiff_t tocmark_read_json_(const uint8_t *text, size_t text_len, uint32_t flags, uint8_t *out,
                                           size_t out_len) {
  return tocmark_read_json(tocmark_text_(text), text_len, flags, tocmark_room_(out), out_len);
}

static inline ptrdiff_t tocmark_read_marshal_(const uint8_t *text, size_t text_len, uint32_t flags, uint8_t *out,
                                              size_t out_len) {
  return tocmark_read_marshal(tocmark_text_(text), text_len, flags, tocmark_room_(out), out_len);
}

static inline ptrdiff_t tocmark_links_(const uint8_t *text, size_t text_len, uint32_t flags, uint8_t *out, size_t out_len) {
  return tocmark_links(tocmark_text_(text), text_len, flags, tocmark_room_(out), out_len);
}

static inline ptrdiff_t tocmark_headings_(const uint8_t *text, size_t text_len, uint32_t flags, uint8_t *out, size_t out_len) {
  return tocmark_headings(tocmark_text_(text), text_len, flags, tocmark_room_(out), out_len);
}

static inline ptrdiff_t tocmark_words_(const uint8_t *text, size_t text_len, uint32_t flags, uint8_t *out, size_t out_len) {
  return tocmark_words(tocmark_text_(text), text_len, flags, tocmark_room_(out), out_len);
}

static inline ptrdiff_t tocmark_definitions_(const uint8_t *text, size_t text_len, uint32_t flags, uint8_t *out,
                                             size_t out_len) {
  return tocmark_definitions(tocmark_text_(text), text_len, flags, tocmark_room_(out), out_len);
}

static inline ptrdiff_t tocmark_write_json_(const uint8_t *json, size_t json_len, const uint8_t *source, size_t source_len,
                                            uint32_t flags, const uint8_t *options, size_t options_len, uint8_t *out,
                                            size_t out_len) {
  return tocmark_write_json(tocmark_text_(json), json_len, tocmark_text_(source), source_len, flags, tocmark_text_(options),
                            options_len, tocmark_room_(out), out_len);
}

static inline ptrdiff_t tocmark_write_checked_(const uint8_t *json, size_t json_len, const uint8_t *source,
                                               size_t source_len, uint32_t flags, const uint8_t *options, size_t options_len,
                                               uint8_t *out, size_t out_len) {
  return tocmark_write_checked(tocmark_text_(json), json_len, tocmark_text_(source), source_len, flags,
                               tocmark_text_(options), options_len, tocmark_room_(out), out_len);
}

static inline ptrdiff_t tocmark_write_json_at_(const uint8_t *json, size_t json_len, const uint8_t *source,
                                               size_t source_len, uint32_t flags, const uint8_t *options, size_t options_len,
                                               struct tocmark_place *where, uint8_t *out, size_t out_len) {
  struct tocmark_place unread = {sizeof unread, 0, 0, 0};
  return tocmark_write_json_at(tocmark_text_(json), json_len, tocmark_text_(source), source_len, flags,
                               tocmark_text_(options), options_len, where ? where : &unread, tocmark_room_(out), out_len);
}

static inline ptrdiff_t tocmark_write_checked_at_(const uint8_t *json, size_t json_len, const uint8_t *source,
                                                  size_t source_len, uint32_t flags, const uint8_t *options,
                                                  size_t options_len, struct tocmark_place *where, uint8_t *out,
                                                  size_t out_len) {
  struct tocmark_place unread = {sizeof unread, 0, 0, 0};
  return tocmark_write_checked_at(tocmark_text_(json), json_len, tocmark_text_(source), source_len, flags,
                                  tocmark_text_(options), options_len, where ? where : &unread, tocmark_room_(out), out_len);
}

static inline ptrdiff_t tocmark_write_packed_at_(const uint8_t *packed, size_t packed_len, const uint8_t *source,
                                                 size_t source_len, uint32_t flags, const uint8_t *options,
                                                 size_t options_len, struct tocmark_place *where, uint8_t *out,
                                                 size_t out_len) {
  struct tocmark_place unread = {sizeof unread, 0, 0, 0};
  return tocmark_write_packed_at(tocmark_text_(packed), packed_len, tocmark_text_(source), source_len, flags,
                                 tocmark_text_(options), options_len, where ? where : &unread, tocmark_room_(out), out_len);
}

static inline ptrdiff_t tocmark_write_marshal_at_(const uint8_t *bytes, size_t bytes_len, const uint8_t *source,
                                                  size_t source_len, uint32_t flags, const uint8_t *options,
                                                  size_t options_len, struct tocmark_place *where, uint8_t *out,
                                                  size_t out_len) {
  struct tocmark_place unread = {sizeof unread, 0, 0, 0};
  return tocmark_write_marshal_at(tocmark_text_(bytes), bytes_len, tocmark_text_(source), source_len, flags,
                                  tocmark_text_(options), options_len, where ? where : &unread, tocmark_room_(out), out_len);
}

static inline ptrdiff_t tocmark_rewrite_(const uint8_t *json, size_t json_len, const uint8_t *source, size_t source_len,
                                         uint32_t flags, const uint8_t *options, size_t options_len,
                                         struct tocmark_place *where, uint8_t *out, size_t out_len) {
  struct tocmark_place unread = {sizeof unread, 0, 0, 0};
  return tocmark_rewrite(tocmark_text_(json), json_len, tocmark_text_(source), source_len, flags, tocmark_text_(options),
                         options_len, where ? where : &unread, tocmark_room_(out), out_len);
}

static inline ptrdiff_t tocmark_redefine_(const uint8_t *json, size_t json_len, const uint8_t *source, size_t source_len,
                                          uint32_t flags, struct tocmark_place *where, uint8_t *out, size_t out_len) {
  struct tocmark_place unread = {sizeof unread, 0, 0, 0};
  return tocmark_redefine(tocmark_text_(json), json_len, tocmark_text_(source), source_len, flags, where ? where : &unread,
                          tocmark_room_(out), out_len);
}

static inline ptrdiff_t tocmark_format_(const uint8_t *text, size_t text_len, uint32_t flags,
                                        const struct tocmark_style *style, uint8_t *out, size_t out_len) {
  static const struct tocmark_style plain = {sizeof plain, 0, 0, 0, 0, 0, 0, 0, 0, 0, 0, 0, 0, 0};
  return tocmark_format(tocmark_text_(text), text_len, flags, style ? style : &plain, tocmark_room_(out), out_len);
}

static inline ptrdiff_t tocmark_format_also_(const uint8_t *text, size_t text_len, uint32_t flags, const uint32_t *also,
                                             size_t also_len, const struct tocmark_style *style, uint8_t *out,
                                             size_t out_len) {
  static const struct tocmark_style plain = {sizeof plain, 0, 0, 0, 0, 0, 0, 0, 0, 0, 0, 0, 0, 0};
  static const uint32_t none = 0; /* never read, since its length is 0 */
  return tocmark_format_also(tocmark_text_(text), text_len, flags, also ? also : &none, also_len, style ? style : &plain,
                             tocmark_room_(out), out_len);
}

static inline ptrdiff_t tocmark_compare_(const uint8_t *old_text, size_t old_len, const uint8_t *new_text, size_t new_len,
                                         uint32_t flags, uint32_t allowed, uint8_t *out, size_t out_len) {
  return tocmark_compare(tocmark_text_(old_text), old_len, tocmark_text_(new_text), new_len, flags, allowed,
                         tocmark_room_(out), out_len);
}

#define tocmark_error_text tocmark_error_text_
#define tocmark_read_json tocmark_read_json_
#define tocmark_read_marshal tocmark_read_marshal_
#define tocmark_links tocmark_links_
#define tocmark_headings tocmark_headings_
#define tocmark_words tocmark_words_
#define tocmark_definitions tocmark_definitions_
#define tocmark_write_json tocmark_write_json_
#define tocmark_write_checked tocmark_write_checked_
#define tocmark_write_json_at tocmark_write_json_at_
#define tocmark_write_checked_at tocmark_write_checked_at_
#define tocmark_write_packed_at tocmark_write_packed_at_
#define tocmark_write_marshal_at tocmark_write_marshal_at_
#define tocmark_rewrite tocmark_rewrite_
#define tocmark_redefine tocmark_redefine_
#define tocmark_format tocmark_format_
#define tocmark_format_also tocmark_format_also_
#define tocmark_compare tocmark_compare_

#ifdef __cplusplus
}
#endif

#endif
