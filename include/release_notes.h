/*
 * Release notes: an HTML page to short Markdown, Markdown to block records, a walker that reads the records, their sections, and the
 * blocks that contain a relay's type code.
 *
 * Link with libcapi.a, which `rt lib` in crates/capi writes to its folder out (x86-64 Linux). It needs memcpy and memset, nothing else.
 *
 * What holds for every call:
 * - It allocates nothing and keeps no state: all that it reads and writes is lent by the caller, for that one call.
 * - Any number of threads may call at once, as long as no two calls share a work or result buffer and nobody writes what is being read.
 * - Each pointer is valid for the length that follows it, in bytes (that of `lengths` counts its numbers): readable, and writable too for
 *   work and result. Nothing beyond is touched.
 * - No pointer may be NULL, not even with length 0: pass the address of any object instead.
 * - work and result overlap neither each other nor what is read (page, markdown).
 * - What work and result hold before a call does not matter: they need not be set.
 * - A call that refuses says why in `number`; every other member is then 0. The buffers are left as each call below says.
 * - No text ends in a zero byte: use the lengths.
 */
#ifndef RELEASE_NOTES_H
#define RELEASE_NOTES_H

#include <stddef.h>
#include <stdint.h>

#ifdef __cplusplus
extern "C" {
#endif

/* The member `number` of every answer. */
enum rn_number {
    RN_OK = 0,               /* not refused */
    RN_NOT_UTF8 = 1,         /* the page or the Markdown is not UTF-8 (RFC 3629) */
    RN_SMALL_WORK = 2,       /* work is too short: RN_WORK_FOR_PAGE, RN_WORK_FOR_MARKDOWN */
    RN_SMALL_RESULT = 3,     /* the converter's result is under RN_RESULT_FOR_PAGE bytes */
    RN_TOO_MANY_LISTS = 4,   /* the page opens a list inside 64 open ones */
    RN_TOO_LONG = 5,         /* the Markdown is over RN_MARKDOWN_MAX bytes */
    RN_RECORDS_TOO_LONG = 6, /* the records do not fit the block reader's result: RN_RECORDS_MAX */
    RN_NO_BLOCK = 7,         /* the offset is past the end, or no well-formed block stands there (rn_here_at: no well-formed span;
                                rn_section_at: records broken somewhere; rn_find_codes: the search comes to a broken block) */
    RN_NOT_CODES = 10        /* over RN_CODES_MAX codes, one outside 1 to RN_CODE_MAX bytes, or lengths that do not add up; no call
                                answers 8 or 9 */
};

/*
 * Buffer sizes in bytes, all of type size_t and usable as array sizes. n is evaluated more than once.
 */

/* The converter reads this much of a page and ignores the rest, which has to be UTF-8 all the same. */
#define RN_PAGE_READ_MAX ((size_t)1048576)

/* work for a page of n bytes: 2 * (bytes read) + 16384, so at most 2113536. */
#define RN_WORK_FOR_PAGE(n) (2 * ((size_t)(n) < RN_PAGE_READ_MAX ? (size_t)(n) : RN_PAGE_READ_MAX) + 16384)

/* result for a page of any length. Markdown from the converter is never longer: it has at most 8,000 characters. */
#define RN_RESULT_FOR_PAGE ((size_t)32000)

/* The longest Markdown that the block reader takes. */
#define RN_MARKDOWN_MAX ((size_t)65536)

/* work for n bytes of Markdown, n up to RN_MARKDOWN_MAX. */
#define RN_WORK_FOR_MARKDOWN(n) (6 * (size_t)(n))

/*
 * result for n bytes of Markdown, n up to RN_MARKDOWN_MAX: with this much, 6 is not answered.
 *
 * Found by reasoning, not part of what is proved; a test in examples/release_notes.rs tries all short Markdown over ten characters.
 * Let a line have t bytes with its newline (the last line is given one, hence n + 1). Two spans are at least one byte of Markdown
 * apart, and a span takes 5 bytes and its text, so m bytes give at most 3m + 3 bytes of spans. With the block's own bytes:
 *   paragraph, all its lines joined   5 + 3(t - 1) + 3   = 3t + 5, t at least 2
 *   heading                           6 + 3(t - 3) + 3   = 3t
 *   item, bullet or number            9 + 3(t - 3) + 3   = 3t + 3, and 2 for a depth, which takes 2 bytes of indent
 *   further line of an item           6 + 3(t - 2) + 3   = 3t + 3, 6 of them for a span of one space
 *   table row, where | grows to 4     5 + 4.5(t - 1)
 * and nothing for blank lines and rules. None is over 5.5t. Lines of a single # are paragraphs of 11 bytes each, and so reach it.
 */
#define RN_RECORDS_MAX(n) (11 * ((size_t)(n) + 1) / 2)

/* The answer of a call that writes: its number and, if that is RN_OK, how many bytes it wrote at the start of result. */
typedef struct rn_written {
    uint32_t number;
    size_t length;
} rn_written;

/*
 * Converts a page to Markdown.
 *
 *   page    UTF-8, of any length; read only
 *   work    at least RN_WORK_FOR_PAGE(page_length) bytes
 *   result  at least RN_RESULT_FOR_PAGE bytes; receives the Markdown
 *
 * number, the first that applies: 1 not UTF-8 (the whole page is tested), 2 work too short, 3 result too short, 4 a 65th list is
 * opened inside 64 others in the part that is converted. Any other page, however damaged its tags, is converted.
 *
 * Afterwards:  result  RN_OK: the first `length` bytes are the Markdown, the others unchanged; refused: unchanged
 *              work    1, 2, 3: unchanged; RN_OK, 4: any bytes, of no further use
 */
rn_written rn_html_to_markdown(const uint8_t *page, size_t page_length, uint8_t *work, size_t work_length, uint8_t *result,
                               size_t result_length);

/*
 * Reads the blocks of Markdown, from the converter or from anywhere else, and writes them as records.
 *
 *   markdown  UTF-8, at most RN_MARKDOWN_MAX bytes; read only
 *   work      at least RN_WORK_FOR_MARKDOWN(markdown_length) bytes
 *   result    receives the records; RN_RECORDS_MAX(markdown_length) bytes are enough, and any length is allowed
 *
 * number, the first that applies: 5 Markdown too long, 1 not UTF-8, 2 work too short, 6 the records are longer than result.
 * After 6, call again with a longer result; the Markdown is unchanged.
 *
 * Afterwards:  result  RN_OK: the first `length` bytes are the records, the others unchanged; 6: all zero; 1, 2, 5: unchanged
 *              work    1, 2, 5: unchanged; RN_OK, 6: any bytes, of no further use
 */
rn_written rn_blocks(const uint8_t *markdown, size_t markdown_length, uint8_t *work, size_t work_length, uint8_t *result,
                     size_t result_length);

/*
 * The answer of the sheet test. A sheet is a page in a strict form of HTML, of which converter and block reader together give exactly
 * the headings, paragraphs, items and emphasised runs that its tags say.
 *   number      RN_OK or RN_NOT_UTF8
 *   yes         1 if the page is a sheet, 0 if not
 *   bytes       for a sheet, the length of its Markdown as the converter gives it, under 16,000; otherwise 0
 *   characters  for a sheet, the characters in that Markdown, at most 8,000; otherwise 0
 */
typedef struct rn_tested {
    uint32_t number;
    uint32_t yes;
    size_t bytes;
    size_t characters;
} rn_tested;

/* Tests whether a page (of any length, read only) is a sheet. Refuses with 1 if it is not UTF-8; "no" is no refusal. */
rn_tested rn_sheet(const uint8_t *page, size_t page_length);

/*
 * The walker. `records` and `records_length` are what rn_blocks wrote and the length that it answered. Other bytes do no harm: each
 * call checks the block or span that it is asked about, and answers 7 (those with a `number`) or an empty part where none stands.
 * `at` is the offset of a block: 0 for the first one, then `next` of the block before.
 *
 * Each call with a span number n reads its block from the start, so going through all spans of one block by number takes time that
 * grows with the square of their number: 1,000 spans took 14 ms in one measurement, 4,000 took 0.2 s, 32,000 some 15 s. To go through
 * all of them use rn_first_at once and rn_here_at for each, which together take time in proportion to the block's bytes.
 */

/* The member `kind` of rn_block. */
enum rn_block_kind {
    RN_END = 0, /* `at` is the records' length: there are no more blocks */
    RN_HEADING = 1,
    RN_PARAGRAPH = 2,
    RN_ITEM = 3 /* a list item */
};

/*
 * A block.
 *   number  RN_OK or RN_NO_BLOCK
 *   kind    enum rn_block_kind
 *   level   of a heading, 1 to 3; otherwise 0
 *   depth   of an item, 0 for an outermost list; otherwise 0
 *   count   how many spans the block has; it may have none
 *   next    the offset of the next block, or the records' length after the last one; 0 at the end
 */
typedef struct rn_block {
    uint32_t number;
    uint32_t kind;
    size_t level;
    size_t depth;
    size_t count;
    size_t next;
} rn_block;

rn_block rn_block_at(const uint8_t *records, size_t records_length, size_t at);

/* The member `kind` of rn_span. */
enum rn_span_kind {
    RN_NO_SPAN = 0, /* n is not under the block's count, or `at` is the records' length */
    RN_SPAN = 1
};

/*
 * A span: a run of text with one emphasis.
 *   number              RN_OK or RN_NO_BLOCK
 *   kind                enum rn_span_kind
 *   bold, italic, code  1 or 0 each, in any combination
 */
typedef struct rn_span {
    uint32_t number;
    uint32_t kind;
    uint32_t bold;
    uint32_t italic;
    uint32_t code;
} rn_span;

/* Span n, counted from 0, of the block at `at`. */
rn_span rn_span_at(const uint8_t *records, size_t records_length, size_t at, size_t n);

/*
 * A part of the records: `length` bytes of UTF-8 from records + start, always inside the records. It is valid as long as they are.
 * An empty part has start 0, but that of a span without text, which has the offset after the span.
 */
typedef struct rn_part {
    size_t start;
    size_t length;
} rn_part;

/* The marker of the item at `at`: U+2022, or 1 to 9 digits and a full stop. Empty where no item stands. */
rn_part rn_marker_at(const uint8_t *records, size_t records_length, size_t at);

/* The text of span n of the block at `at`. Empty where there is no such span; of the spans, only one with `code` can be empty. */
rn_part rn_text_at(const uint8_t *records, size_t records_length, size_t at, size_t n);

/*
 * Where the first span of the block at `at` stands.
 *   number  RN_OK or RN_NO_BLOCK
 *   at      the offset of the first span, or of the next block where this one has no spans; 0 where `at` is the records' length
 */
typedef struct rn_first {
    uint32_t number;
    size_t at;
} rn_first;

rn_first rn_first_at(const uint8_t *records, size_t records_length, size_t at);

/*
 * A span by its own offset: that of rn_first_at, and then `next` of the span before. Only `count` of rn_block says how many spans a block
 * has; behind the last one stands the next block.
 *   number              RN_OK or RN_NO_BLOCK: no well-formed span stands there; none does at the records' end
 *   bold, italic, code  1 or 0 each, in any combination
 *   start, length       the text, a part of the records
 *   next                the offset of the next span, after the last span that of the next block. Go on there: that it is start + length
 *                       holds only as long as nothing follows the text in a span.
 */
typedef struct rn_here {
    uint32_t number;
    uint32_t bold;
    uint32_t italic;
    uint32_t code;
    size_t start;
    size_t length;
    size_t next;
} rn_here;

rn_here rn_here_at(const uint8_t *records, size_t records_length, size_t span_at);

/*
 * The section of a title. A section is a heading and all blocks up to the next heading of the same or a smaller level, or to the end of
 * the records; so that of a heading of level 1 holds the sections of the headings of level 2 and 3 below it.
 *   number         RN_OK, or RN_NO_BLOCK: a block of the records is broken, be it before, in or behind the section
 *   found          1, or 0 if no heading has this title, which is no refusal
 *   start, length  the section: `length` bytes from records + start, always inside the records; 0 and 0 if there is none
 * These bytes are records of their own: give records + start and length to any call of the walker, which counts offsets from 0 there,
 * or to rn_section_at again, for a section inside.
 */
typedef struct rn_section {
    uint32_t number;
    uint32_t found;
    size_t start;
    size_t length;
} rn_section;

/*
 * The first section whose heading has exactly the bytes of `title`: the texts of its spans one after the other, with nothing between them.
 * The title may be a part of the records. An empty one is that of a heading without text, and one that is not UTF-8 that of none.
 * Each call reads all the records, in time in proportion to their bytes.
 */
rn_section rn_section_at(const uint8_t *records, size_t records_length, const uint8_t *title, size_t title_length);

/* How many codes rn_find_codes takes at most, and the bytes of the longest; the shortest has one. Usable as array sizes. */
#define RN_CODES_MAX 16
#define RN_CODE_MAX 32

/*
 * Where several codes stand.
 *   number     RN_OK, RN_NOT_CODES (tested first, before any record is read), or RN_NO_BLOCK
 *   visited    how many blocks were read, the last one included
 *   found[i]   1 if a block contains code i, otherwise 0
 *   blocks[i]  the number of the first block that contains code i, where the first block of the records has number 0; 0 if none does
 * Behind the codes, and on a refusal everywhere, found and blocks are 0.
 */
typedef struct rn_codes {
    uint32_t number;
    size_t visited;
    uint32_t found[RN_CODES_MAX];
    size_t blocks[RN_CODES_MAX];
} rn_codes;

/*
 * Finds up to 16 codes, such as the type codes of the relays in a station, in one walk over the records: for each code the first block
 * whose text contains it, where the text of a block is the texts of its spans one after the other, with nothing between them.
 *
 *   codes    the bytes of all codes, one code after the other, with nothing between them; read only
 *   lengths  how many bytes each of them has, so lengths_length is how many codes there are; read only
 *
 * A code is bytes, those of a type code in UTF-8, and is looked for as bytes: upper and lower case differ, and one that is no UTF-8 by
 * itself is taken too. Codes may repeat, and equal ones get equal answers. Each answer is the one that a call with this code alone gives.
 *
 * The walk ends after the block with which every code has been found, otherwise at the end of the records. Without codes nothing is
 * read: RN_OK, and visited is 0. A broken block that the walk comes to is refused with RN_NO_BLOCK, also where some codes were found
 * before it; one behind the end of the walk is not seen and changes nothing.
 *
 * number, the first that applies: 10 over RN_CODES_MAX codes, a code without bytes or with more than RN_CODE_MAX, or lengths that do not
 * add up to codes_length; 7 a broken block. Nothing is written. The time is in proportion to the bytes that are read, whatever the codes
 * and the texts are.
 */
rn_codes rn_find_codes(const uint8_t *records, size_t records_length, const uint8_t *codes, size_t codes_length, const size_t *lengths,
                       size_t lengths_length);

#ifdef __cplusplus
}
#endif

#endif
