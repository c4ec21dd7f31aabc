/*
 * A card that is pulled out in the middle of a write, in C.
 *
 * Formats a small card, fills a log block, pulls the card out at every step of
 * the write that merges it, powers up and reads: the page is the old one or the
 * new one, and all others are as they were. Then loads a whole block, pulls the card
 * out at every step of that, and finds all its pages old or all new. Returns 0 if
 * every answer was the expected one, else says which was not and returns 1.
 */
#include "hamutsigra.h"

#include <stdio.h>
#include <string.h>

/* The card: P 4, L 2, K 1, B 4. */
enum { PAGES = 4, LOGICAL = 2, LOGS = 1, BLOCKS = 4 };

struct card {
    uint8_t data[BLOCKS * PAGES * HAMUTSIGRA_DATA_BYTES];
    uint8_t spare[BLOCKS * PAGES * HAMUTSIGRA_SPARE_BYTES];
};

static int surprises;

static void expect(const char *what, uint64_t result, enum hamutsigra_answer answer,
                   uint32_t programs, uint32_t erases)
{
    if (hamutsigra_answer_of(result) == answer && hamutsigra_programs_of(result) == programs &&
        hamutsigra_erases_of(result) == erases)
        return;
    fprintf(stderr, "%s: answer %d with %u programs and %u erases, not %d with %u and %u\n",
            what, (int)hamutsigra_answer_of(result), (unsigned)hamutsigra_programs_of(result),
            (unsigned)hamutsigra_erases_of(result), (int)answer, (unsigned)programs,
            (unsigned)erases);
    surprises++;
}

static void expect_equal(const char *what, unsigned long is, unsigned long should_be)
{
    if (is == should_be)
        return;
    fprintf(stderr, "%s: %lu, not %lu\n", what, is, should_be);
    surprises++;
}

/* Writes a page of which every byte is fill. */
static uint64_t write_page(struct card *card, size_t number, uint8_t fill, size_t cut)
{
    uint8_t page[HAMUTSIGRA_DATA_BYTES];
    memset(page, fill, sizeof page);
    return hamutsigra_write(card->data, sizeof card->data, card->spare, sizeof card->spare,
                            page, sizeof page, PAGES, LOGICAL, LOGS, number, cut);
}

/* Loads a block: every byte of its first page is fill, of the next one fill + 1, .. */
static uint64_t load_block(struct card *card, size_t number, uint8_t fill, size_t cut)
{
    uint8_t block[PAGES * HAMUTSIGRA_DATA_BYTES];
    size_t page;

    for (page = 0; page < PAGES; page++)
        memset(block + page * HAMUTSIGRA_DATA_BYTES, (int)(fill + page), HAMUTSIGRA_DATA_BYTES);
    return hamutsigra_block_write(card->data, sizeof card->data, card->spare, sizeof card->spare,
                                  block, sizeof block, PAGES, LOGICAL, LOGS, number, cut);
}

static uint64_t power_up(struct card *card, uint16_t *table)
{
    return hamutsigra_power_up(card->data, sizeof card->data, card->spare, sizeof card->spare,
                               table, 2 * LOGICAL, PAGES, LOGICAL, LOGS, HAMUTSIGRA_NO_CUT);
}

/* Reads a page and expects every byte of it to be fill, lent as well as read. */
static void expect_content(const struct card *card, size_t number, uint8_t fill)
{
    uint8_t page[HAMUTSIGRA_DATA_BYTES];
    uint64_t lent;
    size_t i;

    memset(page, (uint8_t)~fill, sizeof page);
    expect("read",
           hamutsigra_read(card->data, sizeof card->data, card->spare, sizeof card->spare,
                           page, sizeof page, PAGES, LOGICAL, LOGS, number),
           HAMUTSIGRA_DONE, 0, 0);
    for (i = 0; i < sizeof page; i++)
        expect_equal("byte of the page read", page[i], fill);

    lent = hamutsigra_lend(card->data, sizeof card->data, card->spare, sizeof card->spare,
                           PAGES, LOGICAL, LOGS, number);
    if (lent == HAMUTSIGRA_NOT_LENT)
        expect_equal("byte of a page that is not lent", fill, 255);
    else
        expect_equal("page lent equals page read",
                     (unsigned long)memcmp(card->data + lent, page, sizeof page), 0);
}

/* Expects the pages of block 0, filled as load_block fills them. */
static void expect_block(const struct card *card, uint8_t fill)
{
    size_t page;

    for (page = 0; page < PAGES; page++)
        expect_content(card, page, (uint8_t)(fill + page));
}

/* Formats a used card and fills its one log block with pages 1, 0, 1 and 2. */
static void prepare(struct card *card)
{
    memset(card->data, 0, sizeof card->data);
    memset(card->spare, 255, sizeof card->spare);
    expect("format",
           hamutsigra_format(card->data, sizeof card->data, card->spare, sizeof card->spare,
                             PAGES, LOGICAL, LOGS, HAMUTSIGRA_NO_CUT),
           HAMUTSIGRA_DONE, 0, BLOCKS);
    expect("write 1", write_page(card, 1, 10, HAMUTSIGRA_NO_CUT), HAMUTSIGRA_DONE, 1, 0);
    expect("write 0", write_page(card, 0, 11, HAMUTSIGRA_NO_CUT), HAMUTSIGRA_DONE, 1, 0);
    expect("write 1", write_page(card, 1, 12, HAMUTSIGRA_NO_CUT), HAMUTSIGRA_DONE, 1, 0);
    expect("write 2", write_page(card, 2, 13, HAMUTSIGRA_NO_CUT), HAMUTSIGRA_DONE, 1, 0);
}

/*
 * The write of page 3 has six steps: four programs of the merge, the erase of the
 * log block, the program of the page itself.
 */
static void pull_out_after(size_t steps)
{
    static struct card card;
    uint16_t table[2 * LOGICAL];
    uint32_t programs = steps < 4 ? (uint32_t)steps : 4;
    uint32_t erases = steps < 5 ? 0 : 1;

    prepare(&card);
    expect("cut write", write_page(&card, 3, 14, steps), HAMUTSIGRA_CUT, programs, erases);

    /* A half-made copy goes, and so does a log block whose copy is whole. */
    expect("power-up", power_up(&card, table), HAMUTSIGRA_DONE, 0, steps >= 1 && steps <= 4);
    expect_equal("data block of 0", table[0], steps < 4 ? HAMUTSIGRA_NO_BLOCK : 1);
    expect_equal("log block of 0", table[1], steps < 4 ? 0 : HAMUTSIGRA_NO_BLOCK);
    expect_equal("data block of 1", table[2], HAMUTSIGRA_NO_BLOCK);
    expect_equal("log block of 1", table[3], HAMUTSIGRA_NO_BLOCK);

    expect_content(&card, 0, 11);
    expect_content(&card, 1, 12);
    expect_content(&card, 2, 13);
    expect_content(&card, 3, 255);
}

/* The same card with page 3 written: block 0 has a data block and a log block. */
static void prepare_block(struct card *card)
{
    prepare(card);
    expect("write 3", write_page(card, 3, 14, 6), HAMUTSIGRA_DONE, 5, 1);
}

/*
 * The load of block 0 has six steps: four programs, the erase of the log block, the
 * erase of the data block. It has happened exactly if the four programs are done.
 */
static void pull_out_of_load_after(size_t steps)
{
    static struct card card;
    uint16_t table[2 * LOGICAL];
    uint32_t programs = steps < 4 ? (uint32_t)steps : 4;
    uint32_t erases = (uint32_t)steps - programs;
    uint64_t result;
    int happened;

    prepare_block(&card);
    result = load_block(&card, 0, 21, steps);
    expect("cut load", result, HAMUTSIGRA_CUT, programs, erases);
    happened = hamutsigra_programs_of(result) == PAGES;
    expect_block(&card, happened ? 21 : 11);

    /* A half-made block goes, and so does what is left of the one replaced. */
    expect("power-up", power_up(&card, table), HAMUTSIGRA_DONE, 0,
           happened ? 2 - erases : steps > 0);
    expect_block(&card, happened ? 21 : 11);
}

int main(void)
{
    static struct card card;
    size_t steps;

    for (steps = 0; steps < 6; steps++) {
        pull_out_after(steps);
        pull_out_of_load_after(steps);
    }

    prepare_block(&card);
    expect_content(&card, 3, 14);
    expect("write 8", write_page(&card, 8, 15, HAMUTSIGRA_NO_CUT), HAMUTSIGRA_OUT_OF_RANGE, 0, 0);
    expect("load 0", load_block(&card, 0, 21, 6), HAMUTSIGRA_DONE, 4, 2);
    expect_block(&card, 21);
    expect("load 2", load_block(&card, 2, 31, HAMUTSIGRA_NO_CUT), HAMUTSIGRA_OUT_OF_RANGE, 0, 0);

    if (surprises == 0)
        puts("pulled card: every answer was the expected one");
    return surprises != 0;
}
