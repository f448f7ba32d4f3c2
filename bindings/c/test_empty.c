/* Buffers of no elements, for each parameter that is one: as a pointer to something, and null. */
#include "test.h"

static const uint16_t list[2] = {1, 2};
static const uint8_t table[17] = {0, 0, 0, 13, 1, 0, 3, 4, 0, 1, 2, 2, 0, 1, 1, 2, 0};
static const uint64_t words[1] = {1122};

static void empty_places(setting s)
{
    meant(try_pack(s, list, 0), 9, 0);
    meant(try_unpack(s, 1122, 0), 10, 0);
    meant(try_build_table(s, 0), 10, 0);
    meant(try_reduce_by_table(s, table, 0, words, 1, 1), 15, 0);
    meant_value(try_reduce_by_table(s, table, 17, words, 0, 1), 0);
    meant(try_reduce_by_table(s, table, 17, words, 1, 0), 10, 0);
    meant_value(try_reduce_by_table(s, table, 17, words, 0, 0), 0);
    meant(try_reduce_by_table(s, table, 0, words, 0, 0), 15, 0);
}

static void empty_lists(setting s)
{
    meant_value(try_product(s, list, 0, list, 2, 3), 0);
    meant_value(try_product(s, list, 2, list, 0, 3), 0);
    meant(try_product(s, list, 2, list, 2, 0), 10, 0);
    meant_value(try_product(s, list, 0, list, 0, 0), 0);
    meant(try_sum(s, list, 0, list, 2, 0, 3), 9, 0);
    meant(try_sum(s, list, 2, list, 0, 1, 3), 9, 0);
    meant_value(try_sum(s, list, 0, list, 0, 0, 3), 0);
    meant_value(try_sum(s, list, 0, list, 0, 1, 5), 0);
    meant(try_sum(s, list, 2, list, 2, 1, 0), 10, 0);
    meant(try_sum(s, list, 0, list, 0, 1, 0), 10, 0);
    meant_lane(try_lane_sum(s, list, 0, list, 2), 9, 0);
    meant_lane(try_lane_sum(s, list, 2, list, 0), 9, 0);
    meant_lane_value(try_lane_sum(s, list, 0, list, 0), 0.0);
}

/* A refused setting comes first here too. */
static void empty_refused(setting s)
{
    meant(try_pack(s, list, 0), 1, 0);
    meant(try_unpack(s, 1122, 0), 1, 0);
    meant(try_build_table(s, 0), 1, 0);
    meant(try_reduce_by_table(s, table, 0, words, 0, 0), 1, 0);
    meant(try_product(s, list, 0, list, 0, 0), 1, 0);
    meant(try_sum(s, list, 0, list, 0, 0, 0), 1, 0);
    meant_lane(try_lane_sum(s, list, 0, list, 0), 1, 0);
}

void test_empty(void)
{
    for (null_for_empty = 0; null_for_empty < 2; null_for_empty++) {
        empty_places(make_setting(3, 2, 4, 1));
        empty_lists(make_setting(3, 2, 4, 1));
        empty_refused(make_setting(UINT64_MAX, 2, 4, 1));
    }
    null_for_empty = 0;
}
