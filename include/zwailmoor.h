/*
 * Zwailmoor, a list set engine: up to 32 ascending lists of numbers, combined by union, intersection and difference,
 * whose members are drawn in order and can be taken up again at a bookmark.
 *
 * Link crates/zwailmoor/out/libzwailmoor.a (x86-64 Linux), which `rt lib` in crates/zwailmoor proves and writes. It needs memcpy and
 * memset of the C library, and nothing else. examples/console.c shows the calls at work.
 *
 * Rows. A row is an array that the caller lends for one call: a pointer, and behind it the number of elements (not of bytes).
 *   - The library keeps no pointer once a call has returned, allocates nothing and frees nothing. All rows stay the caller's.
 *   - No pointer may be NULL, not even where the length is 0, and each must be aligned for its type: the proof speaks of
 *     references, which are so. For an empty row lend the address of any variable of the type.
 *   - A row must really have the length that is said of it. No call can test that.
 *   - A row that is written (one without const) must not overlap any other row of the same call. Rows that are only read may.
 *   - A count that is lent is a row of one, and so the same holds of it.
 *
 * Threads. The library has no state: any number of threads may call at once, as long as nobody writes a row while it is lent
 * to another thread's call.
 *
 * Lists. Their numbers stand in one row, one list after the other, and each list has an end: list k stands from the end of list
 * k - 1 (0 for the first) up to its own, that end excluded. Beside the ends goes a word of 32 bits that says which lists were
 * delivered, list 0 in the most significant bit: 1 delivered, 0 not. A list that was not delivered has no numbers, and an
 * expression that names it is refused; one that was delivered and is empty is the empty set. Bits of lists that are not there are
 * ignored, and 0 in a word that is handed back.
 *
 * Arguments. Apart from the rows' own conditions above, and given 16 kB of stack, every call takes any values, and ends. There is
 * no earlier call that has to be made first: each call tests what it is given.
 *
 * Refusals. Every call but zwailmoor_list_span hands back a number: 0 (ZWAILMOOR_ACCEPTED), or what is wrong with the input. A
 * refusal leaves every row and a lent count as they were, and every other part of the result is 0. Where several apply, the one
 * that is tested first is handed back; the order is said at each call. On success, elements of a row behind those written hold
 * what they held.
 */
#ifndef ZWAILMOOR_H
#define ZWAILMOOR_H

#include <stddef.h>
#include <stdint.h>

#ifdef __cplusplus
extern "C" {
#endif

/* The largest number of lists, of numbers in one list, of nodes of an expression, and its greatest depth (the root has 1). */
#define ZWAILMOOR_LISTS 32
#define ZWAILMOOR_LIST_NUMBERS 65535
#define ZWAILMOOR_NODES 48
#define ZWAILMOOR_DEPTH 12

/* The bookmark to begin with, and the top one, behind every number: from there a next call replies finished. */
#define ZWAILMOOR_FIRST_BOOKMARK UINT64_C(0)
#define ZWAILMOOR_TOP_BOOKMARK UINT64_C(4294967296)

/* The word of lists that were all delivered, and the bit of one list in a word: of list 0 to 31. */
#define ZWAILMOOR_ALL_DELIVERED UINT32_C(0xFFFFFFFF)
#define ZWAILMOOR_DELIVERED(list) (UINT32_C(0x80000000) >> (list))

/* What is handed back as `number`, and by zwailmoor_update. */
#define ZWAILMOOR_ACCEPTED 0          /* Nothing is wrong. */
#define ZWAILMOOR_ENDS_EARLY 1        /* The bytes or the row end too early. */
#define ZWAILMOOR_TOO_MANY_NODES 2    /* The expression has more than 48 nodes. */
#define ZWAILMOOR_TOO_DEEP 3          /* The expression is deeper than 12. */
#define ZWAILMOOR_NO_SUCH_LIST 4      /* The expression or the change names a list that is not there. */
#define ZWAILMOOR_LEFT_OVER 5         /* Something is left over behind the end, or a fill bit is 1. */
#define ZWAILMOOR_ROW_TOO_SHORT 6     /* A lent row is too short for the result. */
#define ZWAILMOOR_NUMBER_OF_LISTS 7   /* There are no lists, or more than 32. */
#define ZWAILMOOR_GAP_PASSES_TOP 8    /* A delivered number would pass 4,294,967,295. */
#define ZWAILMOOR_WIDTH_NOT_LEAST 9   /* A delivered list is not packed in the least width. */
#define ZWAILMOOR_BAD_ENDS 10         /* An end falls or passes the row, or a list has more than 65,535 numbers, or has any and
                                         was not delivered. */
#define ZWAILMOOR_NOT_ASCENDING 11    /* A list does not ascend, or holds a number twice. */
#define ZWAILMOOR_BAD_BOOKMARK 12     /* The bookmark is above 4,294,967,296. */
#define ZWAILMOOR_LENGTHS_DIFFER 13   /* Codes and arguments differ in length, or the replies' row is shorter than the codes. */
#define ZWAILMOOR_UNKNOWN_BYTE 14     /* A byte of an expression's row stands for no node. */
#define ZWAILMOOR_NO_CHANGE 15        /* The number to add is in the list, or the number to remove is not. */
#define ZWAILMOOR_LIST_FULL 16        /* The list to add to has 65,535 numbers. */
#define ZWAILMOOR_ROW_NOT_CURRENT 17  /* The kept row or its count is not that of the expression's members. */
#define ZWAILMOOR_LIST_NOT_DELIVERED 18   /* The expression or the change names a list that was not delivered. */
#define ZWAILMOOR_DELIVERY_INCOMPLETE 19  /* A list was not delivered, which the old form cannot say. */
#define ZWAILMOOR_LIST_COUNTS_DIFFER 20   /* The two deliveries to join have differing numbers of lists. */
#define ZWAILMOOR_JOINED_LIST_TOO_LONG 21 /* A joined list would have more than 65,535 numbers. */

/* The codes of a run's calls. Any other code is replied to as unknown, and changes nothing. */
#define ZWAILMOOR_NEXT 0              /* The least member not below the floor; its argument is ignored. */
#define ZWAILMOOR_AT_OR_PAST 1        /* Raise the floor to the argument if it is lower, then as next. */
#define ZWAILMOOR_PAST 2              /* Raise the floor to the argument plus 1 if it is lower, then as next. */
#define ZWAILMOOR_CHECK 3             /* Is the argument a member, not below the floor? Then raise the floor to it if lower. */

/* A reply up to UINT32_MAX is a member; the others are these. */
#define ZWAILMOOR_NO UINT64_C(4294967296)
#define ZWAILMOOR_YES UINT64_C(4294967297)
#define ZWAILMOOR_FINISHED UINT64_C(4294967298)
#define ZWAILMOOR_UNKNOWN UINT64_C(4294967299)

/* The bytes of an expression's row form: a list's number 0 to 31 stands as itself; each node comes before its members. */
#define ZWAILMOOR_DIFFERENCE 64             /* In the first of two nodes, not in the second. */
#define ZWAILMOOR_UNION(nodes) (128 + (nodes))         /* Of 1 to 8 nodes. */
#define ZWAILMOOR_INTERSECTION(nodes) (192 + (nodes))  /* Of 1 to 8 nodes. */

/* What reading or writing one row hands back: how many elements were written. */
typedef struct zwailmoor_write_result {
    uint32_t number;
    size_t count;
} zwailmoor_write_result;

/* What reading a delivery hands back: which lists were delivered; how many lists (and ends) and how many numbers were written. */
typedef struct zwailmoor_decode_result {
    uint32_t number;
    uint32_t word;
    size_t lists;
    size_t numbers;
} zwailmoor_decode_result;

/* Where one list stands in the row of numbers. */
typedef struct zwailmoor_span {
    size_t start;
    size_t size;
} zwailmoor_span;

/*
 * What a run hands back: how many moves its readers made in all; in expression order each node's place, which is how many numbers
 * of its list its reader has passed, 0 at operators and unused nodes; and the bookmark to go on from.
 * A reader that seeks a number first hops: while 64 numbers or more remain from its place and the 64th of them is below that number,
 * its place grows by 64, which is one move. Then it moves singly, each time one place and one move. So the moves are at most the sum
 * of the places, and that is at most the moves of zwailmoor_bounds.
 */
typedef struct zwailmoor_run_result {
    uint32_t number;
    uint32_t moves;
    uint16_t places[ZWAILMOOR_NODES];
    uint64_t bookmark;
} zwailmoor_run_result;

/* How large it can get: the most members, the most moves of a run, and the most bytes of a delivery. */
typedef struct zwailmoor_bounds_result {
    uint32_t number;
    uint32_t members;
    uint32_t moves;
    size_t bytes;
} zwailmoor_bounds_result;

/*
 * Reads a packed expression over so many lists, of which the word says which were delivered, and writes its row form: one byte a
 * node, `count` of them. 48 places are always enough.
 * Refusals: 7; at each node 2, 3, 1, 4, 18; after the last node 5, then 6.
 */
zwailmoor_write_result zwailmoor_unpack_expression(const uint8_t *packed, size_t packed_length, size_t lists, uint32_t word,
                                                   uint8_t *row, size_t row_length);

/*
 * Reads an expression's row form over such lists, and writes it packed: `count` bytes. 41 places are always enough.
 * Refusals: 7; at each node 2, 3, 1, 14, 4, 18; after the last node 5, then 6.
 */
zwailmoor_write_result zwailmoor_pack_expression(const uint8_t *row, size_t row_length, size_t lists, uint32_t word,
                                                 uint8_t *packed, size_t packed_length);

/*
 * Reads a delivery, and writes the lists' numbers one list after the other, and one end for each list, also for one that was not
 * delivered. 32 places are always enough for the ends.
 * Refusals: 1 wherever the bits run out; 7; 6 for the ends; then for each list 6 for the numbers, 8, 9; at the end 5.
 */
zwailmoor_decode_result zwailmoor_decode_delivery(const uint8_t *delivery, size_t delivery_length, uint32_t *numbers,
                                                  size_t numbers_length, uint32_t *ends, size_t ends_length);

/*
 * Writes lists as a delivery: `count` bytes. There are as many lists as ends, and numbers behind the last end are ignored. Of a
 * list that was not delivered one bit is written that says so.
 * Refusals: 7, 10, 11 (each over all lists before the next), 6.
 */
zwailmoor_write_result zwailmoor_encode_delivery(const uint32_t *numbers, size_t numbers_length, const uint32_t *ends,
                                                 size_t ends_length, uint32_t word, uint8_t *delivery,
                                                 size_t delivery_length);

/*
 * Moves a stored delivery to the form that the other calls read and write, all its lists delivered: `count` bytes. The old form
 * has no bit ahead of a list's count. 4 places more than the old form has bytes are always enough.
 * Refusals: 1 wherever the bits run out; 7; for each list 8, 9; then 5; 6.
 */
zwailmoor_write_result zwailmoor_upgrade_delivery(const uint8_t *old, size_t old_length, uint8_t *delivery,
                                                  size_t delivery_length);

/*
 * Moves a delivery back to the old form: `count` bytes. As many places as the delivery has bytes are always enough. There and
 * back, in either direction, gives the same bytes.
 * Refusals: 1 wherever the bits run out; 7; for each list 8, 9; then 5; 19 if any list was not delivered; 6.
 */
zwailmoor_write_result zwailmoor_downgrade_delivery(const uint8_t *delivery, size_t delivery_length, uint8_t *old,
                                                    size_t old_length);

/*
 * Joins a full delivery and a daily one, of equally many lists, into one delivery: `count` bytes. List k of the outcome is the union
 * of both lists k, a number that is in both standing there once. A list that was delivered in one only is taken from that one; one
 * that was delivered in neither is not delivered. Delivered and empty is delivered. The other way round gives the same bytes, and a
 * delivery joined with itself gives its own: `full` and `daily` may be one row.
 * 8,388,569 places are always enough, which is what zwailmoor_bounds says of 32 lists of 65,535. The outcome can be longer than both
 * deliveries together: one number far away widens every gap of its list.
 * Refusals: of the full one 1 wherever the bits run out, 7, for each list 8, 9, then 5; the same of the daily one; 20; 21, over all
 * lists; 6.
 * Its work is proportional to the two deliveries and what is written.
 */
zwailmoor_write_result zwailmoor_join_deliveries(const uint8_t *full, size_t full_length, const uint8_t *daily,
                                                 size_t daily_length, uint8_t *joined, size_t joined_length);

/*
 * Where a list stands in the row of numbers: `size` numbers from numbers[start] on. Both are 0 if refusal 7, 10 or 11 would
 * apply to the lists, or if there is no such list. A list that was not delivered has size 0 at its own place.
 */
zwailmoor_span zwailmoor_list_span(const uint32_t *numbers, size_t numbers_length, const uint32_t *ends, size_t ends_length,
                                   uint32_t word, size_t list);

/*
 * How large it can get, from the lists' ends and the packed expression alone: no number is read, so none need be there yet, and
 * every list counts as delivered.
 *   - `members`: a list has as many as it is long, a union at most the sum of its nodes', an intersection the least of them, a
 *     difference its first node's. For a single list it is exact.
 *   - `moves`: the lengths of the leaves' lists added up, a list once for each leaf it stands at. No run makes more; each
 *     hop of a reader spares 63.
 *   - `bytes`: the most that a delivery of lists with these ends can fill, whether the expression names them or not. They are all
 *     filled where every list was delivered, and each of two numbers or more needs the width of 32.
 * To reserve by it: `members` + 1 replies, and as many codes and arguments, are enough for a run of next calls to draw everything
 * from any bookmark and end with finished. `bytes` bytes are never too few for zwailmoor_encode_delivery: 6 cannot come. To read
 * such a delivery back takes as many ends as there are lists, and as many numbers as the last end says. None of the three
 * overflows: `members` and `moves` are at most 3,145,680, and `bytes` at most 8,388,569.
 * Refusals: 7; 10 if an end falls or a list has more than 65,535 numbers (there is no row that an end could pass); of the
 * expression as in zwailmoor_unpack_expression 1 to 5, and never 18.
 * Its work is proportional to the lists and the nodes, however many numbers there are.
 */
zwailmoor_bounds_result zwailmoor_bounds(const uint32_t *ends, size_t ends_length, const uint8_t *packed, size_t packed_length);

/*
 * A run: puts the calls codes[i] with arguments[i] one after the other to the set that the packed expression denotes over the
 * lists, and writes replies[i] for each. The floor begins at the bookmark; the bookmark handed back is the last floor, so a run
 * over the same lists and expression from there goes on where this one ended; its moves and places are its own and begin at 0.
 * A member that was drawn is not drawn again in this run, nor from the bookmark that it hands back.
 * Refusals: 7, 10, 11 (each over all lists before the next); of the expression as in zwailmoor_unpack_expression 1 to 5
 * and 18; 12; 13.
 */
zwailmoor_run_result zwailmoor_run(const uint32_t *numbers, size_t numbers_length, const uint32_t *ends, size_t ends_length,
                                   uint32_t word, const uint8_t *packed, size_t packed_length, uint64_t bookmark,
                                   const uint8_t *codes, size_t codes_length, const uint32_t *arguments,
                                   size_t arguments_length, uint64_t *replies, size_t replies_length);

/*
 * One change, with the shown members kept current: adds a number to a list or removes it (`add` 0 removes, any other value adds).
 * The first `*count` elements of `members` are the members of the packed expression over the lists, ascending, before and after;
 * only that number may have come or gone. Hands back the refusal's number, or 0.
 * In `numbers` the later numbers move by one place, and the ends from that list's on by one: the last end says how far the row is
 * used. Behind the new last end and the new count the rows hold what they held.
 * Adding takes a place behind the last end; a new member takes one behind the old ones, and can come by removing too, from a list
 * that is subtracted. One place behind each is always enough.
 * Refusals: 7, 10, 11 (each over all lists before the next); of the expression as in zwailmoor_unpack_expression 1 to 5 and 18;
 * 4 for the list, then 18 for it; 17; 15; 16; 6 for either row.
 * To test 17 it draws all members, so it takes about as long as drawing them in one run.
 */
uint32_t zwailmoor_update(uint32_t *numbers, size_t numbers_length, uint32_t *ends, size_t ends_length, uint32_t word,
                          const uint8_t *packed, size_t packed_length, size_t list, uint32_t number, uint8_t add,
                          uint32_t *members, size_t members_length, size_t *count);

#ifdef __cplusplus
}
#endif

#endif
