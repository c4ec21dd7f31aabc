/*
 * Hamutsigra: the flash translation layer of a lab card, for firmware.
 *
 * A raw NAND chip is lent as two images, its data bytes and its spare bytes, and
 * becomes L x P numbered pages of 512 bytes that survive a card pulled out between
 * any two steps: a page programmed, a block erased. What a chip does when power
 * fails inside a step is not covered. The rules are those of document 01, and of
 * document 02, request (i) for the block write and (ii) for bad blocks; "8",
 * "power-up" or "live" in the comments here mean what they mean there. The functions
 * are total: any shape, any length and any bytes have an answer. They are proved for
 * a size_t of 64 bits.
 *
 * In short:
 *
 *     static uint8_t data[64 * 32 * HAMUTSIGRA_DATA_BYTES];     64 blocks ..
 *     static uint8_t spare[64 * 32 * HAMUTSIGRA_SPARE_BYTES];   .. of 32 pages
 *     uint16_t table[2 * 56];         56 logical blocks: 3 of the 64 may be bad
 *     uint64_t result;
 *
 *     result = hamutsigra_power_up(data, sizeof data, spare, sizeof spare,
 *                                  table, 2 * 56, 32, 56, 4, HAMUTSIGRA_NO_CUT);
 *     if (hamutsigra_answer_of(result) == HAMUTSIGRA_DONE) {
 *         result = hamutsigra_write(data, sizeof data, spare, sizeof spare,
 *                                   page, HAMUTSIGRA_DATA_BYTES, 32, 56, 4,
 *                                   number, HAMUTSIGRA_NO_CUT);
 *     }
 *
 * What the parameters have in common:
 *
 *   data, data_len     the data image: B x P x 512 bytes, pages end to end
 *   spare, spare_len   the spare image: B x P x 16 bytes, for the same B
 *   page, page_len     the bytes of a logical page: 512
 *   block, block_len   the bytes of a logical block: P x 512, pages end to end
 *   table, table_len   the table of power-up: 2 x L, counted in numbers, not bytes
 *   pages              P, the pages of a block: 2 to 32
 *   logical            L, the logical blocks: at least 1
 *   logs               K, the log blocks at most: at least 1
 *   number             the logical page: 0 to L x P - 1; for a block write the
 *                      logical block: 0 to L - 1
 *   cut                the steps after which the card is pulled out;
 *                      HAMUTSIGRA_NO_CUT for never
 *
 * B is 3 to 64 and follows from the lengths. The shape is not stored on the chip:
 * give every command of a card the same P, L and K.
 *
 * Bad blocks:
 *
 *   A block is bad when spare byte 5 of its page 0 or of its page 1 is not 255, the
 *   maker's mark. (P is at least 2: every block has a page 1.) It is never programmed
 *   or erased, and what it holds counts for nothing. The layer used to look at page 0
 *   alone: a block in use that has such a byte on page 1 now drops out of the card,
 *   with what it held. `card check` names such blocks: run it on every card that was
 *   formatted earlier before it gets this library.
 *
 * What is lent:
 *
 *   - A part must be what its length says: a pointer to at least that many bytes
 *     (for the table: numbers), not null, even where the length is 0. Bytes may
 *     start anywhere; the table is aligned as a uint16_t is.
 *   - The parts lent to one call must not overlap. A page or a block of the image is
 *     copied before it is given to hamutsigra_write or hamutsigra_block_write.
 *   - It is lent for the call alone: nothing is kept after it, and nothing but what
 *     is lent is touched.
 *
 * A chip that is not in the address space:
 *
 *   Keep a copy of the chip in memory and lend that. What a command does is fixed by
 *   the images and the call: the same call on the same images, cut at 1, 2, 3, ..,
 *   does one step more each time. What two of the images differ in is the next step,
 *   one page programmed or one block erased, as the counts of the result say. Do it on
 *   the chip, and go on until the answer is not HAMUTSIGRA_CUT; the images of that call
 *   are the new copy. examples/c/chip_on_a_bus.c does it.
 *
 * What a call takes:
 *
 *   - No heap, no recursion, and less than 2,200 bytes of stack on x86-64, whatever
 *     the shape (docs/PERFORMANCE.md has the figure of each function).
 *   - The time to read the whole image, however little the command changes.
 *   - memcpy and memset of the platform. Nothing else is linked to.
 *   - A processor with SSE 4.2 (x86-64-v2): the library is compiled for it.
 *   - No state of its own. Calls may interrupt each other or run side by side as long
 *     as none is lent what another one writes.
 */
#ifndef HAMUTSIGRA_H
#define HAMUTSIGRA_H

#include <stddef.h>
#include <stdint.h>

#ifdef __cplusplus
extern "C" {
#endif

/* A cast in the words of either language: C++ warns about those of C. */
#ifdef __cplusplus
#define HAMUTSIGRA_CAST(type, value) static_cast<type>(value)
#else
#define HAMUTSIGRA_CAST(type, value) ((type)(value))
#endif

/* A page has 512 data bytes and 16 spare bytes. */
#define HAMUTSIGRA_DATA_BYTES 512
#define HAMUTSIGRA_SPARE_BYTES 16

/* As cut: the card is not pulled out. No list of steps is this long. */
#define HAMUTSIGRA_NO_CUT HAMUTSIGRA_CAST(size_t, -1)

/* In the table of power-up: no such block. */
#define HAMUTSIGRA_NO_BLOCK HAMUTSIGRA_CAST(uint16_t, 65535)

/* From hamutsigra_lend: the part is empty. */
#define HAMUTSIGRA_NOT_LENT HAMUTSIGRA_CAST(uint64_t, -1)

/*
 * What the card replies. The lowest number that applies is the answer. 1 to 7
 * change nothing and have zero counts; 8 leaves exactly the steps done, and counts
 * them.
 */
enum hamutsigra_answer {
    /* All done. */
    HAMUTSIGRA_DONE = 0,
    /* Shape or image length outside the limits. */
    HAMUTSIGRA_OUTSIDE_LIMITS = 1,
    /* Page buffer not 512 long, block buffer not P x 512, table not 2 x L. */
    HAMUTSIGRA_WRONG_BUFFER = 2,
    /* Logical page or logical block out of range. */
    HAMUTSIGRA_OUT_OF_RANGE = 3,
    /* Fewer good blocks than L + K + 1: those that are not bad. */
    HAMUTSIGRA_TOO_FEW_BLOCKS = 4,
    /* The image is not well-formed: W1 to W7 not all true. */
    HAMUTSIGRA_ILL_FORMED = 5,
    /* An obsolete block exists: run power-up. */
    HAMUTSIGRA_NEEDS_POWER_UP = 6,
    /* The sequence numbers do not suffice: none above 4,294,967,294. */
    HAMUTSIGRA_OUT_OF_NUMBERS = 7,
    /* Cut number below the length of the list of steps. */
    HAMUTSIGRA_CUT = 8
};

/*
 * Makes an empty card: erases each good block that is not free, whatever is in it.
 * Bad blocks are left as they are. Answers 0, 1, 4 or 8; after 8 format again.
 *
 * The images are what the chip has, all 255 where it is erased. Where none has been
 * read from a chip, fill them with 255: images of zeros have bad blocks only.
 */
uint64_t hamutsigra_format(uint8_t *data, size_t data_len,
                           uint8_t *spare, size_t spare_len,
                           size_t pages, size_t logical, size_t logs,
                           size_t cut);

/*
 * Erases each obsolete block. Run it whenever the card gets power, before the
 * first write. Answers 0, 1, 2, 4, 5 or 8; after 8 run it again.
 *
 * The table has 2 x L numbers. With answer 0 they are, for logical block l, its
 * data block at 2 x l and its live log block at 2 x l + 1, each
 * HAMUTSIGRA_NO_BLOCK for none; with another answer they are left as they were.
 */
uint64_t hamutsigra_power_up(uint8_t *data, size_t data_len,
                             uint8_t *spare, size_t spare_len,
                             uint16_t *table, size_t table_len,
                             size_t pages, size_t logical, size_t logs,
                             size_t cut);

/*
 * Puts the content of a logical page into the 512 bytes of page: 255s where it
 * was never written. Answers 0, 1, 2, 3, 4 or 5, always with zero counts; with
 * another answer than 0 the page is left as it was. It needs no power-up before
 * it: obsolete blocks have no part in the content.
 */
uint64_t hamutsigra_read(const uint8_t *data, size_t data_len,
                         const uint8_t *spare, size_t spare_len,
                         uint8_t *page, size_t page_len,
                         size_t pages, size_t logical, size_t logs,
                         size_t number);

/*
 * Makes the 512 bytes of page the content of a logical page, with P + 1 programs and
 * 2 erases at most. Answers 0 to 8; after 6 and 8 run power-up. A cut write has
 * happened exactly if the program of its own page was done.
 */
uint64_t hamutsigra_write(uint8_t *data, size_t data_len,
                          uint8_t *spare, size_t spare_len,
                          const uint8_t *page, size_t page_len,
                          size_t pages, size_t logical, size_t logs,
                          size_t number, size_t cut);

/*
 * Makes the P x 512 bytes of block the content of a logical block, all or none, with
 * P programs and 2 erases at most: page o of the block gets the o-th 512 bytes.
 * Answers 0 to 8; after 6 and 8 run power-up. The content is the old one until the
 * last program and the new one from there: a cut block write has happened exactly if
 * the programs of its result are P.
 */
uint64_t hamutsigra_block_write(uint8_t *data, size_t data_len,
                                uint8_t *spare, size_t spare_len,
                                const uint8_t *block, size_t block_len,
                                size_t pages, size_t logical, size_t logs,
                                size_t number, size_t cut);

/*
 * Says where the content of a logical page lies: the byte of data at which its
 * 512 bytes start. HAMUTSIGRA_NOT_LENT when read would refuse (its buffer check
 * aside), or when no flash page holds the content, which is then all 255. The place
 * is good until the next command that changes the image. It is a place, not a result
 * for the helpers below.
 */
uint64_t hamutsigra_lend(const uint8_t *data, size_t data_len,
                         const uint8_t *spare, size_t spare_len,
                         size_t pages, size_t logical, size_t logs,
                         size_t number);

/*
 * A result taken apart: the answer in bits 0 to 7, the pages programmed in bits 8
 * to 31, the blocks erased in bits 32 to 63.
 */
static inline enum hamutsigra_answer hamutsigra_answer_of(uint64_t result)
{
    return HAMUTSIGRA_CAST(enum hamutsigra_answer, result & 0xff);
}

static inline uint32_t hamutsigra_programs_of(uint64_t result)
{
    return HAMUTSIGRA_CAST(uint32_t, result >> 8) & 0xffffff;
}

static inline uint32_t hamutsigra_erases_of(uint64_t result)
{
    return HAMUTSIGRA_CAST(uint32_t, result >> 32);
}

#ifdef __cplusplus
}
#endif

#endif
