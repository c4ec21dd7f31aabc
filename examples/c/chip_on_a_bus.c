/*
 * A chip that is not in the address space, in C.
 *
 * The firmware keeps a copy of the chip in memory. What a command does is fixed by
 * the image and the call, so the same write on the same image, cut at 1, 2, 3, ..,
 * does one step more each time: what two of these images differ in is the next step,
 * to be done on the chip. Pages are written so, and now and then a whole block.
 * Returns 0 if the chip ends as a card written directly does and no page was
 * programmed that was not erased, else says what differs and returns 1.
 */
#include "hamutsigra.h"

#include <stdio.h>
#include <string.h>

/* The card: P 4, L 2, K 1, B 4. */
enum { PAGES = 4, LOGICAL = 2, LOGS = 1, BLOCKS = 4 };
enum { DATA = HAMUTSIGRA_DATA_BYTES, SPARE = HAMUTSIGRA_SPARE_BYTES };

struct card {
    uint8_t data[BLOCKS * PAGES * DATA];
    uint8_t spare[BLOCKS * PAGES * SPARE];
};

static int surprises;

static void surprise(const char *what, size_t where)
{
    fprintf(stderr, "%s %lu\n", what, (unsigned long)where);
    surprises++;
}

/* The chip: nothing but these two functions writes to it. */
static struct card chip;

static void chip_program(size_t page, const uint8_t *data, const uint8_t *spare)
{
    size_t i;

    for (i = 0; i < DATA; i++)
        if (chip.data[page * DATA + i] != 255)
            surprise("programmed twice: page", page);
    memcpy(chip.data + page * DATA, data, DATA);
    memcpy(chip.spare + page * SPARE, spare, SPARE);
}

static void chip_erase(size_t block)
{
    memset(chip.data + block * PAGES * DATA, 255, PAGES * DATA);
    memset(chip.spare + block * PAGES * SPARE, 255, PAGES * SPARE);
}

/* Does on the chip the one step that leads from one image to the next. */
static void pass_on(const struct card *from, const struct card *to, int is_erase)
{
    size_t page;

    for (page = 0; page < BLOCKS * PAGES; page++) {
        const uint8_t *data = to->data + page * DATA;
        const uint8_t *spare = to->spare + page * SPARE;

        if (memcmp(from->data + page * DATA, data, DATA) == 0 &&
            memcmp(from->spare + page * SPARE, spare, SPARE) == 0)
            continue;
        if (is_erase)
            chip_erase(page / PAGES);
        else
            chip_program(page, data, spare);
        return;
    }
}

static uint64_t write_page(struct card *card, size_t number, uint8_t fill, size_t cut)
{
    uint8_t page[DATA];

    memset(page, fill, sizeof page);
    return hamutsigra_write(card->data, sizeof card->data, card->spare, sizeof card->spare,
                            page, sizeof page, PAGES, LOGICAL, LOGS, number, cut);
}

static uint64_t write_block(struct card *card, size_t number, uint8_t fill, size_t cut)
{
    uint8_t block[PAGES * DATA];

    memset(block, fill, sizeof block);
    return hamutsigra_block_write(card->data, sizeof card->data, card->spare, sizeof card->spare,
                                  block, sizeof block, PAGES, LOGICAL, LOGS, number, cut);
}

/* A write of a page or of a block. */
typedef uint64_t write_command(struct card *card, size_t number, uint8_t fill, size_t cut);

/* A write, step by step: *copy is the chip's image before it and after each step. */
static uint64_t write_through(struct card *copy, write_command *command, size_t number,
                              uint8_t fill)
{
    static struct card start, next;
    uint32_t erases = 0;
    uint64_t result;
    size_t steps;

    start = *copy;
    for (steps = 1;; steps++) {
        next = start;
        result = command(&next, number, fill, steps);
        pass_on(copy, &next, hamutsigra_erases_of(result) > erases);
        erases = hamutsigra_erases_of(result);
        *copy = next;
        if (hamutsigra_answer_of(result) != HAMUTSIGRA_CUT)
            return result;
    }
}

int main(void)
{
    static struct card copy, direct;
    size_t i;

    memset(&chip, 255, sizeof chip);
    copy = direct = chip;
    for (i = 0; i < 200; i++) {
        int is_block = i % 7 == 6;
        write_command *command = is_block ? write_block : write_page;
        size_t number = i * 5 % (is_block ? LOGICAL : LOGICAL * PAGES);
        uint8_t fill = (uint8_t)(i % 255);
        uint64_t result = write_through(&copy, command, number, fill);

        if (hamutsigra_answer_of(result) != HAMUTSIGRA_DONE)
            surprise("not done: write", i);
        if (result != command(&direct, number, fill, HAMUTSIGRA_NO_CUT))
            surprise("another result: write", i);
        if (memcmp(&chip, &direct, sizeof chip) != 0)
            surprise("another chip: write", i);
    }
    if (surprises == 0)
        puts("chip on a bus: step by step as written directly");
    return surprises != 0;
}
