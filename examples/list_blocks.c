/* Lists the blocks of the HTML page on standard input: each block's kind, then its spans with their emphasis. */
#include "release_notes.h"

#include <stdio.h>
#include <stdlib.h>

/* The longest page taken. The converter reads RN_PAGE_READ_MAX bytes of it and only tests the rest to be UTF-8. */
#define PAGE_MAX (RN_PAGE_READ_MAX + 65536)

/* What the user can do about a refusal. */
static const char *advice(uint32_t number)
{
    switch (number) {
    case RN_NOT_UTF8:
        return "the input is not UTF-8; convert it first, for example with iconv";
    case RN_SMALL_WORK:
        return "the work buffer is too short; size it with RN_WORK_FOR_PAGE or RN_WORK_FOR_MARKDOWN";
    case RN_SMALL_RESULT:
        return "the result buffer is too short; give it RN_RESULT_FOR_PAGE bytes";
    case RN_TOO_MANY_LISTS:
        return "a list stands inside 64 others; close lists that were left open, or nest fewer";
    case RN_TOO_LONG:
        return "the Markdown is over RN_MARKDOWN_MAX bytes; shorten it";
    case RN_RECORDS_TOO_LONG:
        return "the records do not fit; give the result RN_RECORDS_MAX bytes";
    case RN_NO_BLOCK:
        return "no block stands here, or one is broken; read only what rn_blocks wrote, from 0 and then by next";
    case RN_NOT_CODES:
        return "the codes cannot be looked for; give at most 16 of 1 to 32 bytes each, and their lengths";
    default:
        return "a number that release_notes.h does not have; library and header differ";
    }
}

static void refuse(const char *call, uint32_t number)
{
    fprintf(stderr, "%s refused (%lu): %s\n", call, (unsigned long)number, advice(number));
    exit(1);
}

static void fail(const char *why)
{
    fprintf(stderr, "%s\n", why);
    exit(1);
}

/* A buffer of this length; never NULL, even for length 0. */
static uint8_t *buffer(size_t length)
{
    uint8_t *bytes = malloc(length > 0 ? length : 1);
    if (bytes == NULL)
        fail("out of memory");
    return bytes;
}

static uint8_t *read_page(size_t *length)
{
    uint8_t *page = buffer(PAGE_MAX + 1);
    *length = fread(page, 1, PAGE_MAX + 1, stdin);
    if (ferror(stdin))
        fail("standard input cannot be read");
    if (*length > PAGE_MAX)
        fail("the page is too long; give at most 1 MiB and 64 KiB");
    return page;
}

static uint8_t *convert(const uint8_t *page, size_t page_length, size_t *length)
{
    size_t work_length = RN_WORK_FOR_PAGE(page_length);
    uint8_t *work = buffer(work_length);
    uint8_t *markdown = buffer(RN_RESULT_FOR_PAGE);
    rn_written written = rn_html_to_markdown(page, page_length, work, work_length, markdown, RN_RESULT_FOR_PAGE);
    free(work);
    if (written.number != RN_OK)
        refuse("rn_html_to_markdown", written.number);
    *length = written.length;
    return markdown;
}

static uint8_t *read_blocks(const uint8_t *markdown, size_t markdown_length, size_t *length)
{
    size_t work_length = RN_WORK_FOR_MARKDOWN(markdown_length);
    size_t records_length = RN_RECORDS_MAX(markdown_length);
    uint8_t *work = buffer(work_length);
    uint8_t *records = buffer(records_length);
    rn_written written = rn_blocks(markdown, markdown_length, work, work_length, records, records_length);
    free(work);
    if (written.number != RN_OK)
        refuse("rn_blocks", written.number);
    *length = written.length;
    return records;
}

/* How many bytes of a control character stand at the front of UTF-8: 1 for U+0000 to U+001F and U+007F, 2 for U+0080 to U+009F. */
static size_t control(const uint8_t *text, size_t length)
{
    if (length > 0 && (text[0] < 32 || text[0] == 127))
        return 1;
    return length > 1 && text[0] == 0xc2 && text[1] < 0xa0 ? 2 : 0;
}

/* The bytes of control characters are shown as \xNN, so that a page cannot steer the terminal with them. */
static void put_part(const uint8_t *records, rn_part part)
{
    const uint8_t *text = records + part.start;
    size_t i, hidden = 0;
    for (i = 0; i < part.length; i++) {
        if (hidden == 0)
            hidden = control(text + i, part.length - i);
        if (hidden > 0) {
            printf("\\x%02x", (unsigned)text[i]);
            hidden--;
        } else {
            putchar((int)text[i]);
        }
    }
}

static void list_spans(const uint8_t *records, size_t length, size_t at, size_t count)
{
    size_t n;
    rn_first first = rn_first_at(records, length, at);
    size_t span_at = first.at;
    if (first.number != RN_OK)
        refuse("rn_first_at", first.number);
    for (n = 0; n < count; n++) {
        rn_here span = rn_here_at(records, length, span_at);
        rn_part text = {span.start, span.length};
        if (span.number != RN_OK)
            refuse("rn_here_at", span.number);
        printf(" %s%s%s%s \"", span.bold ? " bold" : "", span.italic ? " italic" : "", span.code ? " code" : "",
               span.bold || span.italic || span.code ? "" : " plain");
        put_part(records, text);
        printf("\"\n");
        span_at = span.next;
    }
}

static void put_kind(const uint8_t *records, size_t length, size_t at, rn_block block)
{
    switch (block.kind) {
    case RN_HEADING:
        printf("heading, level %lu\n", (unsigned long)block.level);
        break;
    case RN_PARAGRAPH:
        printf("paragraph\n");
        break;
    case RN_ITEM:
        printf("item, depth %lu, marker ", (unsigned long)block.depth);
        put_part(records, rn_marker_at(records, length, at));
        printf("\n");
        break;
    }
}

static void list_blocks(const uint8_t *records, size_t length)
{
    size_t at = 0;
    for (;;) {
        rn_block block = rn_block_at(records, length, at);
        if (block.number != RN_OK)
            refuse("rn_block_at", block.number);
        if (block.kind == RN_END)
            return;
        put_kind(records, length, at, block);
        list_spans(records, length, at, block.count);
        at = block.next;
    }
}

int main(void)
{
    size_t page_length, markdown_length, records_length;
    uint8_t *page = read_page(&page_length);
    uint8_t *markdown = convert(page, page_length, &markdown_length);
    uint8_t *records = read_blocks(markdown, markdown_length, &records_length);
    list_blocks(records, records_length);
    free(records);
    free(markdown);
    free(page);
    if (fflush(stdout) != 0 || ferror(stdout))
        fail("standard output cannot be written");
    return 0;
}
