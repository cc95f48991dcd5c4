/* README.md's example of each call: it stops with status 1 where an answer is another one. */
#include "release_notes.h"

#include <stdio.h>
#include <stdlib.h>
#include <string.h>

static const uint8_t page[] = "<h1>T</h1><ul><li>a <strong>b</strong></li></ul>";
static uint8_t work[16480], markdown[32000], records[82];

static void must(int holds, const char *call)
{
    if (!holds) {
        fprintf(stderr, "%s does not answer what README.md says; correct the one that is wrong\n", call);
        exit(1);
    }
}

static int reads(size_t start, size_t length, const char *text)
{
    return length == strlen(text) && memcmp(records + start, text, length) == 0;
}

static void convert(void)
{
    rn_written m = rn_html_to_markdown(page, 48, work, 16480, markdown, 32000);
    must(m.number == RN_OK && m.length == 14 && memcmp(markdown, "# T\n\n- a **b**", 14) == 0, "rn_html_to_markdown");
    rn_written r = rn_blocks(markdown, 14, work, 84, records, 82);
    must(r.number == RN_OK && r.length == 34, "rn_blocks");
    rn_tested s = rn_sheet(page, 48);
    must(s.number == RN_OK && s.yes == 1 && s.bytes == 14 && s.characters == 14, "rn_sheet");
}

static void walk(void)
{
    rn_block b = rn_block_at(records, 34, 0);
    must(b.number == RN_OK && b.kind == RN_HEADING && b.level == 1 && b.count == 1 && b.next == 12, "rn_block_at at 0");
    b = rn_block_at(records, 34, 12);
    must(b.number == RN_OK && b.kind == RN_ITEM && b.depth == 0 && b.count == 2 && b.next == 34, "rn_block_at at 12");
    b = rn_block_at(records, 34, 34);
    must(b.number == RN_OK && b.kind == RN_END, "rn_block_at at 34");
    must(rn_block_at(records, 34, 35).number == RN_NO_BLOCK, "rn_block_at at 35");
    rn_part m = rn_marker_at(records, 34, 12);
    must(m.start == 14 && reads(m.start, m.length, "\xe2\x80\xa2"), "rn_marker_at");
}

static void spans(void)
{
    rn_span s = rn_span_at(records, 34, 12, 1);
    must(s.number == RN_OK && s.kind == RN_SPAN && s.bold && !s.italic && !s.code, "rn_span_at");
    rn_part t = rn_text_at(records, 34, 12, 1);
    must(t.start == 33 && reads(t.start, t.length, "b"), "rn_text_at");
    rn_first f = rn_first_at(records, 34, 12);
    must(f.number == RN_OK && f.at == 21, "rn_first_at");
    f = rn_first_at(records, 34, 34);
    must(f.number == RN_OK && f.at == 0, "rn_first_at at 34");
    rn_here h = rn_here_at(records, 34, 21);
    must(h.number == RN_OK && !h.bold && !h.italic && !h.code && h.start == 26 && reads(h.start, h.length, "a "), "rn_here_at at 21");
    must(h.next == 28 && rn_here_at(records, 34, 28).next == 34, "rn_here_at, next");
    must(rn_here_at(records, 34, 34).number == RN_NO_BLOCK, "rn_here_at at 34");
}

static void sections(void)
{
    rn_section s = rn_section_at(records, 34, (const uint8_t *)"T", 1);
    must(s.number == RN_OK && s.found == 1 && s.start == 0 && s.length == 34, "rn_section_at of T");
    rn_block b = rn_block_at(records + s.start, s.length, 12);
    must(b.number == RN_OK && b.kind == RN_ITEM && b.next == s.length, "rn_block_at in the section of T");
    s = rn_section_at(records, 34, (const uint8_t *)"a b", 3);
    must(s.number == RN_OK && s.found == 0 && s.start == 0 && s.length == 0, "rn_section_at of a b");
    s = rn_section_at(records, 33, (const uint8_t *)"T", 1);
    must(s.number == RN_NO_BLOCK && s.found == 0 && s.start == 0 && s.length == 0, "rn_section_at of T in 33 bytes");
}

/* Whether a code is in this block, and which block the answer says. */
static int in_block(rn_codes c, size_t code, size_t block)
{
    return c.found[code] == 1 && c.blocks[code] == block;
}

static void codes(void)
{
    const uint8_t *bytes = (const uint8_t *)"a bTzz";
    const size_t lengths[4] = {3, 1, 1, 1}, empty[4] = {4, 1, 1, 0};
    size_t i;
    rn_codes c = rn_find_codes(records, 34, bytes, 6, lengths, 4);
    must(c.number == RN_OK && c.visited == 2 && in_block(c, 0, 1) && in_block(c, 1, 0), "rn_find_codes of a b, T, z, z");
    for (i = 2; i < RN_CODES_MAX; i++)
        must(c.found[i] == 0 && c.blocks[i] == 0, "rn_find_codes of a b, T, z, z, the codes that are not there");
    c = rn_find_codes(records, 33, bytes + 3, 1, lengths + 1, 1);
    must(c.number == RN_OK && c.visited == 1 && in_block(c, 0, 0), "rn_find_codes of T in 33 bytes");
    c = rn_find_codes(records, 33, bytes, 4, lengths, 2);
    must(c.number == RN_NO_BLOCK && c.visited == 0 && c.found[1] == 0 && c.blocks[1] == 0, "rn_find_codes of a b, T in 33 bytes");
    c = rn_find_codes(records, 34, bytes, 5, lengths, 4);
    must(c.number == RN_NOT_CODES && c.visited == 0 && c.found[1] == 0, "rn_find_codes of 5 bytes and lengths of 6");
    must(rn_find_codes(records, 34, bytes, 6, empty, 4).number == RN_NOT_CODES, "rn_find_codes of a code without bytes");
    c = rn_find_codes(records, 33, bytes, 0, lengths, 0);
    must(c.number == RN_OK && c.visited == 0 && c.found[0] == 0, "rn_find_codes of no codes");
}

int main(void)
{
    must(sizeof page - 1 == 48 && RN_WORK_FOR_PAGE(48) == 16480 && RN_WORK_FOR_MARKDOWN(14) == 84 && RN_RECORDS_MAX(14) == 82, "a size");
    convert();
    walk();
    spans();
    sections();
    codes();
    return 0;
}
