/* Runs the groups and prints how many calls were right and how many wrong. */
#include "test.h"

_Static_assert(SAX_NO_REFUSAL == 0 && SAX_MODULUS == 1 && SAX_LENGTH == 2 && SAX_BATCH == 3 &&
               SAX_WIDTH == 4 && SAX_NARROW == 5 && SAX_ROOM == 6 && SAX_NONE == 7 &&
               SAX_COEFFICIENT == 8 && SAX_SHAPE == 9 && SAX_SHORT == 10 && SAX_WORD == 11 &&
               SAX_RECORD == 12 && SAX_FULL == 13 && SAX_NO_TABLE == 14 && SAX_STALE == 15 &&
               SAX_LANE == 16 && SAX_JOB == 17 && SAX_OVERFLOW == 18,
               "the numbers of docs/REFUSALS.md");
_Static_assert(SAX_MOST_FIELDS == 2 * 8 - 1 && SAX_MOST_TABLE_BYTES == 8 + 127 * 127,
               "the sizes of k = 8 and p = 127");
_Static_assert(sizeof(sax_reply) == 24 && sizeof(sax_lane_reply) == 24, "three words each");

int main(void)
{
    test_settings();
    test_places();
    test_tables();
    test_products();
    test_sums();
    test_lane();
    test_empty();
    return tally_end();
}
