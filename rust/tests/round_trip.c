/* Every call of the header once, on the papers' small inputs: 0 is returned where all are as the papers say. */
#include "zwailmoor.h"

#include <stdlib.h>
#include <string.h>

#define REQUIRE(line, holds) \
    if (!(holds)) {          \
        return line;         \
    }

static int expressions(void)
{
    static const uint8_t packed[2] = {0x40, 0x01}; /* list 0 minus list 1 */
    uint8_t row[3];
    uint8_t bytes[2];
    zwailmoor_write_result out = zwailmoor_unpack_expression(packed, 2, 2, ZWAILMOOR_ALL_DELIVERED, row, 3);
    REQUIRE(1, out.number == ZWAILMOOR_ACCEPTED && out.count == 3)
    REQUIRE(2, row[0] == ZWAILMOOR_DIFFERENCE && row[1] == 0 && row[2] == 1)
    out = zwailmoor_pack_expression(row, 3, 2, ZWAILMOOR_ALL_DELIVERED, bytes, 2);
    REQUIRE(3, out.number == ZWAILMOOR_ACCEPTED && out.count == 2 && memcmp(bytes, packed, 2) == 0)
    out = zwailmoor_unpack_expression(packed, 2, 2, ~ZWAILMOOR_DELIVERED(1), row, 3);
    REQUIRE(22, out.number == ZWAILMOOR_LIST_NOT_DELIVERED && out.count == 0)
    out = zwailmoor_pack_expression(row, 3, 2, ZWAILMOOR_DELIVERED(1), bytes, 2);
    REQUIRE(23, out.number == ZWAILMOOR_LIST_NOT_DELIVERED && out.count == 0)
    return 0;
}

static int operators(void)
{
    static const uint8_t either[3] = {ZWAILMOOR_UNION(2), 0, 1};
    static const uint8_t both[3] = {ZWAILMOOR_INTERSECTION(2), 0, 1};
    uint8_t bytes[3];
    zwailmoor_write_result out = zwailmoor_pack_expression(either, 3, 2, ZWAILMOOR_ALL_DELIVERED, bytes, 3);
    REQUIRE(10, out.number == ZWAILMOOR_ACCEPTED && out.count == 3)
    REQUIRE(11, bytes[0] == 0x88 && bytes[1] == 0x00 && bytes[2] == 0x20)
    out = zwailmoor_pack_expression(both, 3, 2, ZWAILMOOR_ALL_DELIVERED, bytes, 3);
    REQUIRE(12, out.number == ZWAILMOOR_ACCEPTED && out.count == 3)
    REQUIRE(13, bytes[0] == 0xC8 && bytes[1] == 0x00 && bytes[2] == 0x20)
    return 0;
}

static int deliveries(void)
{
    static const uint8_t delivery[8] = {0x0A, 0x00, 0x06, 0x00, 0x00, 0x00, 0x04, 0x04}; /* 2 3 5, and one that did not come */
    uint32_t numbers[3];
    uint32_t ends[2];
    uint8_t bytes[8];
    zwailmoor_decode_result in = zwailmoor_decode_delivery(delivery, 8, numbers, 3, ends, 2);
    REQUIRE(4, in.number == ZWAILMOOR_ACCEPTED && in.word == ZWAILMOOR_DELIVERED(0) && in.lists == 2 && in.numbers == 3)
    REQUIRE(5, numbers[0] == 2 && numbers[1] == 3 && numbers[2] == 5 && ends[0] == 3 && ends[1] == 3)
    zwailmoor_write_result out = zwailmoor_encode_delivery(numbers, 3, ends, 2, in.word, bytes, 8);
    REQUIRE(6, out.number == ZWAILMOOR_ACCEPTED && out.count == 8 && memcmp(bytes, delivery, 8) == 0)
    zwailmoor_span part = zwailmoor_list_span(numbers, 3, ends, 2, in.word, 0);
    REQUIRE(7, part.start == 0 && part.size == 3)
    part = zwailmoor_list_span(numbers, 3, ends, 2, in.word, 1);
    REQUIRE(24, part.start == 3 && part.size == 0)
    return 0;
}

static int moves(void)
{
    static const uint8_t old[8] = {0x04, 0x00, 0x0C, 0x00, 0x00, 0x00, 0x08, 0x08};      /* 2 3 5 */
    static const uint8_t delivery[8] = {0x06, 0x00, 0x06, 0x00, 0x00, 0x00, 0x04, 0x04}; /* the same */
    static const uint8_t incomplete[1] = {0x04};                                         /* one that did not come */
    uint8_t bytes[9] = {77, 77, 77, 77, 77, 77, 77, 77, 77};
    zwailmoor_write_result out = zwailmoor_upgrade_delivery(old, 8, bytes, 9);
    REQUIRE(25, out.number == ZWAILMOOR_ACCEPTED && out.count == 8 && memcmp(bytes, delivery, 8) == 0 && bytes[8] == 77)
    out = zwailmoor_downgrade_delivery(delivery, 8, bytes, 9);
    REQUIRE(26, out.number == ZWAILMOOR_ACCEPTED && out.count == 8 && memcmp(bytes, old, 8) == 0 && bytes[8] == 77)
    out = zwailmoor_downgrade_delivery(incomplete, 1, bytes, 9);
    REQUIRE(27, out.number == ZWAILMOOR_DELIVERY_INCOMPLETE && out.count == 0 && memcmp(bytes, old, 8) == 0)
    return 0;
}

static int joins(void)
{
    static const uint8_t full[8] = {0x0A, 0x00, 0x06, 0x00, 0x00, 0x00, 0x04, 0x04}; /* 2 3 5, and one that did not come */
    static const uint8_t daily[13] = {0x0A, 0x00, 0x02, 0x00, 0x00, 0x00, 0x09, 0x00, 0x01, 0x00, 0x00, 0x00, 0x09}; /* 4, and 9 */
    static const uint8_t both[14] = {0x0A, 0x00, 0x08, 0x00, 0x00, 0x00, 0x04, 0x01, 0x00, 0x01, 0x00, 0x00, 0x00, 0x09};
    static const uint8_t one[1] = {0x04};  /* one that did not come */
    static const uint8_t none[1] = {0x00}; /* no lists */
    uint8_t bytes[15];
    memset(bytes, 77, sizeof bytes);
    zwailmoor_write_result out = zwailmoor_join_deliveries(full, 8, daily, 13, bytes, 15);
    REQUIRE(46, out.number == ZWAILMOOR_ACCEPTED && out.count == 14 && memcmp(bytes, both, 14) == 0 && bytes[14] == 77)
    /* Both are bad, and the full one's number comes. */
    out = zwailmoor_join_deliveries(full, 7, none, 1, bytes, 15);
    REQUIRE(47, out.number == ZWAILMOOR_ENDS_EARLY && out.count == 0)
    out = zwailmoor_join_deliveries(none, 1, full, 7, bytes, 15);
    REQUIRE(48, out.number == ZWAILMOOR_NUMBER_OF_LISTS && out.count == 0)
    out = zwailmoor_join_deliveries(full, 8, one, 1, bytes, 0);
    REQUIRE(49, out.number == ZWAILMOOR_LIST_COUNTS_DIFFER && out.count == 0)
    out = zwailmoor_join_deliveries(full, 8, full, 8, bytes, 7);
    REQUIRE(50, out.number == ZWAILMOOR_ROW_TOO_SHORT && out.count == 0 && memcmp(bytes, both, 14) == 0 && bytes[14] == 77)
    out = zwailmoor_join_deliveries(full, 8, full, 8, bytes, 8);
    REQUIRE(51, out.number == ZWAILMOOR_ACCEPTED && out.count == 8 && memcmp(bytes, full, 8) == 0 && bytes[8] == both[8])
    return 0;
}

/* 0 to 65,534, and 65,535 alone: the union has one number too many. */
static int long_joins(void)
{
    static uint32_t numbers[65536];
    static const uint32_t ends[2] = {65535, 1};
    static uint8_t full[8200];
    const uint32_t all = ZWAILMOOR_ALL_DELIVERED;
    uint8_t daily[7];
    uint8_t lent = 77;
    for (uint32_t i = 0; i < 65536; i++) {
        numbers[i] = i;
    }
    zwailmoor_write_result out = zwailmoor_encode_delivery(numbers, 65535, &ends[0], 1, all, full, sizeof full);
    REQUIRE(52, out.number == ZWAILMOOR_ACCEPTED && out.count == sizeof full)
    out = zwailmoor_encode_delivery(&numbers[65535], 1, &ends[1], 1, all, daily, sizeof daily);
    REQUIRE(53, out.number == ZWAILMOOR_ACCEPTED && out.count == sizeof daily)
    out = zwailmoor_join_deliveries(full, sizeof full, daily, sizeof daily, &lent, 0);
    REQUIRE(54, out.number == ZWAILMOOR_JOINED_LIST_TOO_LONG && out.count == 0)
    return 0;
}

static int runs(void)
{
    static const uint32_t numbers[3] = {2, 3, 5};
    static const uint32_t ends[1] = {3};
    static const uint8_t list[1] = {0x00};
    static const uint8_t codes[2] = {ZWAILMOOR_NEXT, ZWAILMOOR_CHECK};
    static const uint32_t arguments[2] = {0, 5};
    uint64_t replies[2];
    zwailmoor_run_result result =
        zwailmoor_run(numbers, 3, ends, 1, ZWAILMOOR_ALL_DELIVERED, list, 1, 3, codes, 2, arguments, 2, replies, 2);
    REQUIRE(8, result.number == ZWAILMOOR_ACCEPTED && result.moves == 2 && result.places[0] == 2 && result.bookmark == 5)
    REQUIRE(9, replies[0] == 3 && replies[1] == ZWAILMOOR_YES)
    result = zwailmoor_run(numbers, 3, ends, 1, 0, list, 1, 3, codes, 2, arguments, 2, replies, 2);
    REQUIRE(28, result.number == ZWAILMOOR_BAD_ENDS && result.moves == 0 && result.places[0] == 0 && result.bookmark == 0)
    return 0;
}

/* The list 10 20 30 and so on up to 1290, of 129 numbers: its 64th is 640. */
static int hops(void)
{
    static const uint32_t ends[1] = {129};
    static const uint8_t list[1] = {0x00};
    static const uint8_t codes[3] = {ZWAILMOOR_AT_OR_PAST, ZWAILMOOR_CHECK, ZWAILMOOR_PAST};
    static const uint32_t hopping[3] = {641, 1290, UINT32_MAX};
    static const uint32_t single[3] = {640, 1270, 1270};
    const uint32_t all = ZWAILMOOR_ALL_DELIVERED;
    uint32_t numbers[129];
    uint64_t replies[3];
    for (uint32_t i = 0; i < 129; i++) {
        numbers[i] = 10 * (i + 1);
    }
    /* One hop to 650, one to 1290, and a single move over it. */
    zwailmoor_run_result result = zwailmoor_run(numbers, 129, ends, 1, all, list, 1, 0, codes, 3, hopping, 3, replies, 3);
    REQUIRE(41, result.number == ZWAILMOOR_ACCEPTED && result.moves == 3 && result.places[0] == 129)
    REQUIRE(42, replies[0] == 650 && replies[1] == ZWAILMOOR_YES && replies[2] == ZWAILMOOR_FINISHED)
    REQUIRE(43, result.bookmark == ZWAILMOOR_TOP_BOOKMARK)
    /* Each time the 64th number is not below what is sought: 63, 63 and 1 single moves. */
    result = zwailmoor_run(numbers, 129, ends, 1, all, list, 1, 0, codes, 3, single, 3, replies, 3);
    REQUIRE(44, result.number == ZWAILMOOR_ACCEPTED && result.moves == 127 && result.places[0] == 127)
    REQUIRE(45, replies[0] == 640 && replies[1] == ZWAILMOOR_YES && replies[2] == 1280 && result.bookmark == 1281)
    return 0;
}

/* One question in two shapes: equal replies and an equal last bookmark, by other moves. */
static int regrouped(void)
{
    static const uint8_t one[5] = {0x73, 0x10, 0x00, 0x41, 0x03};               /* ((0 or 1) and 2) minus 3 */
    static const uint8_t other[7] = {0x63, 0x90, 0x00, 0xB2, 0x04, 0x10, 0x30}; /* ((0 and 2) or (1 and 2)) minus 3 */
    static const uint32_t numbers[14] = {101, 104, 107, 110, 102, 104, 108, 101, 102, 104, 107, 108, 104, 107};
    static const uint32_t ends[4] = {4, 7, 12, 14};
    static const uint8_t codes[3] = {ZWAILMOOR_NEXT, ZWAILMOOR_CHECK, ZWAILMOOR_PAST};
    static const uint32_t arguments[3] = {0, 102, 102};
    const uint32_t all = ZWAILMOOR_ALL_DELIVERED;
    uint64_t replies[4] = {77, 77, 77, 77};
    uint64_t others[4] = {77, 77, 77, 77};
    zwailmoor_run_result first = zwailmoor_run(numbers, 14, ends, 4, all, one, 5, 101, codes, 3, arguments, 3, replies, 4);
    REQUIRE(55, first.number == ZWAILMOOR_ACCEPTED && first.bookmark == 109)
    REQUIRE(56, replies[0] == 101 && replies[1] == ZWAILMOOR_YES && replies[2] == 108 && replies[3] == 77)
    zwailmoor_run_result second = zwailmoor_run(numbers, 14, ends, 4, all, other, 7, 101, codes, 3, arguments, 3, others, 4);
    REQUIRE(57, second.number == ZWAILMOOR_ACCEPTED && second.bookmark == first.bookmark)
    REQUIRE(58, memcmp(others, replies, sizeof replies) == 0)
    REQUIRE(59, first.moves == 11 && second.moves == 16)
    return 0;
}

/* What is reserved by the bounds is enough, and here no less would be. */
static int bounds(void)
{
    static const uint32_t numbers[3] = {0, UINT32_MAX, 3}; /* 0 4294967295, and 3 */
    static const uint32_t ends[2] = {2, 3};
    static const uint32_t falling[2] = {2, 1};
    static const uint8_t difference[2] = {0x40, 0x01}; /* list 0 minus list 1 */
    const uint32_t all = ZWAILMOOR_ALL_DELIVERED;
    zwailmoor_bounds_result most = zwailmoor_bounds(ends, 2, difference, 2);
    REQUIRE(34, most.number == ZWAILMOOR_ACCEPTED && most.members == 2 && most.moves == 3 && most.bytes == 18)
    const size_t calls = (size_t)most.members + 1;
    uint8_t *codes = calloc(calls, sizeof *codes);
    uint32_t *arguments = calloc(calls, sizeof *arguments);
    uint64_t *replies = calloc(calls, sizeof *replies);
    uint8_t *delivery = calloc(most.bytes, 1);
    REQUIRE(35, codes != NULL && arguments != NULL && replies != NULL && delivery != NULL)
    zwailmoor_run_result result =
        zwailmoor_run(numbers, 3, ends, 2, all, difference, 2, 0, codes, calls, arguments, calls, replies, calls);
    REQUIRE(36, result.number == ZWAILMOOR_ACCEPTED && result.moves == most.moves)
    REQUIRE(37, replies[0] == 0 && replies[1] == UINT32_MAX && replies[2] == ZWAILMOOR_FINISHED)
    zwailmoor_write_result out = zwailmoor_encode_delivery(numbers, 3, ends, 2, all, delivery, most.bytes);
    REQUIRE(38, out.number == ZWAILMOOR_ACCEPTED && out.count == most.bytes)
    uint32_t numbers_back[3];
    uint32_t ends_back[2];
    zwailmoor_decode_result in = zwailmoor_decode_delivery(delivery, out.count, numbers_back, ends[1], ends_back, 2);
    REQUIRE(39, in.number == ZWAILMOOR_ACCEPTED && memcmp(numbers_back, numbers, sizeof numbers) == 0 && ends_back[1] == 3)
    free(codes);
    free(arguments);
    free(replies);
    free(delivery);
    most = zwailmoor_bounds(falling, 2, difference, 2);
    REQUIRE(40, most.number == ZWAILMOOR_BAD_ENDS && most.members == 0 && most.moves == 0 && most.bytes == 0)
    return 0;
}

static int updates(void)
{
    static const uint8_t difference[2] = {0x40, 0x01}; /* list 0 minus list 1 */
    uint32_t numbers[4] = {2, 3, 5, 77};
    uint32_t ends[2] = {2, 3};
    uint32_t members[3] = {2, 3, 77};
    size_t count = 2;
    const uint32_t all = ZWAILMOOR_ALL_DELIVERED;
    REQUIRE(14, zwailmoor_update(numbers, 4, ends, 2, all, difference, 2, 1, 2, 255, members, 3, &count) == ZWAILMOOR_ACCEPTED)
    REQUIRE(15, numbers[1] == 3 && numbers[2] == 2 && numbers[3] == 5 && ends[0] == 2 && ends[1] == 4)
    REQUIRE(16, count == 1 && members[0] == 3 && members[1] == 3 && members[2] == 77)
    REQUIRE(17, zwailmoor_update(numbers, 4, ends, 2, all, difference, 2, 0, 4, 1, members, 3, &count) == ZWAILMOOR_ROW_TOO_SHORT)
    REQUIRE(20, zwailmoor_update(numbers, 4, ends, 2, all, difference, 2, (size_t)1 << 32, 4, 1, members, 3, &count) == ZWAILMOOR_NO_SUCH_LIST)
    REQUIRE(21, numbers[2] == 2 && numbers[3] == 5 && ends[1] == 4 && count == 1 && members[0] == 3 && members[2] == 77)
    REQUIRE(18, zwailmoor_update(numbers, 4, ends, 2, all, difference, 2, 1, 2, 0, members, 3, &count) == ZWAILMOOR_ACCEPTED)
    REQUIRE(19, numbers[2] == 5 && ends[1] == 3 && count == 2 && members[0] == 2 && members[1] == 3)
    return 0;
}

static int undelivered_updates(void)
{
    static const uint8_t list[1] = {0x00};
    static const uint8_t difference[2] = {0x40, 0x01}; /* list 0 minus list 1 */
    uint32_t numbers[3] = {2, 3, 77};
    uint32_t ends[2] = {2, 2};
    uint32_t members[3] = {2, 3, 77};
    size_t count = 2;
    const uint32_t word = ZWAILMOOR_DELIVERED(0);
    REQUIRE(29, zwailmoor_update(numbers, 3, ends, 2, word, list, 1, 1, 5, 1, members, 3, &count) == ZWAILMOOR_LIST_NOT_DELIVERED)
    REQUIRE(30, zwailmoor_update(numbers, 3, ends, 2, word, difference, 2, 0, 5, 1, members, 3, &count) == ZWAILMOOR_LIST_NOT_DELIVERED)
    REQUIRE(31, numbers[2] == 77 && ends[0] == 2 && ends[1] == 2 && count == 2 && members[2] == 77)
    REQUIRE(32, zwailmoor_update(numbers, 3, ends, 2, word, list, 1, 0, 5, 1, members, 3, &count) == ZWAILMOOR_ACCEPTED)
    REQUIRE(33, numbers[2] == 5 && ends[0] == 3 && ends[1] == 3 && count == 3 && members[2] == 5)
    return 0;
}

int main(void)
{
    int wrong = expressions();
    wrong = wrong == 0 ? operators() : wrong;
    wrong = wrong == 0 ? deliveries() : wrong;
    wrong = wrong == 0 ? moves() : wrong;
    wrong = wrong == 0 ? joins() : wrong;
    wrong = wrong == 0 ? long_joins() : wrong;
    wrong = wrong == 0 ? runs() : wrong;
    wrong = wrong == 0 ? hops() : wrong;
    wrong = wrong == 0 ? regrouped() : wrong;
    wrong = wrong == 0 ? bounds() : wrong;
    wrong = wrong == 0 ? updates() : wrong;
    return wrong == 0 ? undelivered_updates() : wrong;
}
