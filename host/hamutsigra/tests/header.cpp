/* Every macro and helper of the header, as C++. */
#include "hamutsigra.h"

size_t cut = HAMUTSIGRA_NO_CUT;
uint16_t block = HAMUTSIGRA_NO_BLOCK;
uint64_t lent = HAMUTSIGRA_NOT_LENT;
size_t bytes = HAMUTSIGRA_DATA_BYTES + HAMUTSIGRA_SPARE_BYTES;

static_assert(HAMUTSIGRA_NO_CUT == static_cast<size_t>(-1), "no list of steps is this long");
static_assert(HAMUTSIGRA_NO_BLOCK == 65535, "as in document 01");
static_assert(HAMUTSIGRA_NOT_LENT == static_cast<uint64_t>(-1), "no place");
static_assert(sizeof HAMUTSIGRA_NO_BLOCK == sizeof(uint16_t), "a number of the table");

bool done(uint64_t result)
{
    return hamutsigra_answer_of(result) == HAMUTSIGRA_DONE &&
           hamutsigra_programs_of(result) == 0 && hamutsigra_erases_of(result) == 0;
}
