/*
 * A console's question, asked page by page. The input is one byte, the expression's length; the packed expression; the delivery.
 * In samples/console the lists are team, partners, held and withdrawn, and the expression says "(team or partners) and held, but
 * not withdrawn".
 *
 *     target/console [FILE [LIST NUMBER]]       (without FILE: samples/console)
 *
 * With LIST and NUMBER that number is then added to that list, and the members are kept current: over samples/console `3 101`
 * withdraws 101. In samples/undelivered the same lists come but withdrawn, which could not be had: nobody is shown, since it cannot
 * be known who was withdrawn. The exit status is 0 if every member was printed, else 1, and standard error says why.
 */
#include <errno.h>
#include <inttypes.h>
#include <stdint.h>
#include <stdio.h>
#include <stdlib.h>

#include "zwailmoor.h"

#define PAGE 2
#define INPUT 65535
/* A number takes at least one bit of a delivery, so this row is long enough for every input. */
#define NUMBERS (8 * INPUT)

struct question {
    const uint8_t *packed;
    size_t packed_length;
    size_t lists;
    size_t count;
    uint32_t word;
};

/* Rows that are reserved before the first page, of as many places as there can be members, and one. */
struct reserved {
    size_t places;
    uint64_t *replies; /* Of all pages: the last place is for finished. */
    uint32_t *members; /* What is shown: the last place is for a member that comes by a change. */
};

/* One place more than an input may have, so that a longer one is seen. */
static uint8_t input[INPUT + 1];
static uint32_t numbers[NUMBERS];
static uint32_t ends[ZWAILMOOR_LISTS];

#define REFUSAL(name, sentence) {ZWAILMOOR_##name, "ZWAILMOOR_" #name, sentence}

static const struct {
    uint32_t number;
    const char *name;
    const char *sentence;
} refusals[] = {
    REFUSAL(ENDS_EARLY, "the bytes end too early"),
    REFUSAL(TOO_MANY_NODES, "the expression has more than 48 nodes"),
    REFUSAL(TOO_DEEP, "the expression is deeper than 12"),
    REFUSAL(NO_SUCH_LIST, "the expression or the change names a list that is not there"),
    REFUSAL(LEFT_OVER, "something is left over behind the end, or a fill bit is 1"),
    REFUSAL(ROW_TOO_SHORT, "a lent row is too short for the result"),
    REFUSAL(NUMBER_OF_LISTS, "there are no lists, or more than 32"),
    REFUSAL(GAP_PASSES_TOP, "a delivered number would pass 4294967295"),
    REFUSAL(WIDTH_NOT_LEAST, "a delivered list is not packed in the least width"),
    REFUSAL(BAD_ENDS, "an end falls or passes the row, or a list has more than 65535 numbers, or has any and was not delivered"),
    REFUSAL(NOT_ASCENDING, "a list does not ascend, or holds a number twice"),
    REFUSAL(BAD_BOOKMARK, "the bookmark is above 4294967296"),
    REFUSAL(LENGTHS_DIFFER, "codes and arguments differ in length, or the row of replies is shorter than the codes"),
    REFUSAL(UNKNOWN_BYTE, "a byte of the expression's row stands for no node"),
    REFUSAL(NO_CHANGE, "the number to add is in the list, or the number to remove is not"),
    REFUSAL(LIST_FULL, "the list to add to has 65535 numbers"),
    REFUSAL(ROW_NOT_CURRENT, "the kept row or its count is not that of the expression's members"),
    REFUSAL(LIST_NOT_DELIVERED, "the expression or the change names a list that was not delivered"),
    REFUSAL(DELIVERY_INCOMPLETE, "a list was not delivered, which the old form cannot say"),
    REFUSAL(LIST_COUNTS_DIFFER, "the two deliveries to join have differing numbers of lists"),
    REFUSAL(JOINED_LIST_TOO_LONG, "a joined list would have more than 65535 numbers"),
};

/* Says what is wrong with which part of the input. Always 1, for the exit status. */
static int refused(const char *part, uint32_t number)
{
    size_t i;

    for (i = 0; i < sizeof refusals / sizeof refusals[0]; i++)
        if (refusals[i].number == number) {
            (void)fprintf(stderr, "%s is refused, %s: %s.\n", part, refusals[i].name, refusals[i].sentence);
            return 1;
        }
    (void)fprintf(stderr, "%s is refused, with a number that stands for nothing: %" PRIu32 ".\n", part, number);
    return 1;
}

/* The file's bytes into `input`; 0 on success. */
static int read_input(const char *path, size_t *length)
{
    FILE *file = fopen(path, "rb");
    int failed;

    if (file == NULL) {
        perror(path);
        return 1;
    }
    *length = fread(input, 1, sizeof input, file);
    failed = ferror(file);
    if (fclose(file) != 0 || failed) {
        (void)fprintf(stderr, "%s could not be read.\n", path);
        return 1;
    }
    if (*length > INPUT) {
        (void)fprintf(stderr, "%s has more than %d bytes.\n", path, INPUT);
        return 1;
    }
    return 0;
}

static void print_lists(const struct question *asked)
{
    size_t list, i;

    for (list = 0; list < asked->lists; list++) {
        zwailmoor_span span = zwailmoor_list_span(numbers, asked->count, ends, asked->lists, asked->word, list);

        printf("list %zu:", list);
        for (i = 0; i < span.size; i++)
            printf(" %" PRIu32, numbers[span.start + i]);
        printf("%s\n", asked->word & ZWAILMOOR_DELIVERED(list) ? "" : " not delivered");
    }
}

/* Where the expression stands, and the delivery into `numbers` and `ends`. */
static int read_delivery(size_t length, struct question *asked)
{
    zwailmoor_decode_result decoded;

    if (length < 1 || length - 1 < input[0])
        return refused("the input", ZWAILMOOR_ENDS_EARLY);
    asked->packed = input + 1;
    asked->packed_length = input[0];
    decoded = zwailmoor_decode_delivery(asked->packed + asked->packed_length, length - 1 - asked->packed_length, numbers,
                                        NUMBERS, ends, ZWAILMOOR_LISTS);
    if (decoded.number != ZWAILMOOR_ACCEPTED)
        return refused("the delivery", decoded.number);
    asked->lists = decoded.lists;
    asked->count = decoded.numbers;
    asked->word = decoded.word;
    printf("lists %zu, numbers %zu\n", decoded.lists, decoded.numbers);
    return 0;
}

/* A look at the expression, so that a bad one, or one over a list that did not come, is refused before the first page. */
static int read_expression(const struct question *asked)
{
    uint8_t row[ZWAILMOOR_NODES];
    zwailmoor_write_result unpacked = zwailmoor_unpack_expression(asked->packed, asked->packed_length, asked->lists, asked->word,
                                                                  row, ZWAILMOOR_NODES);

    if (unpacked.number != ZWAILMOOR_ACCEPTED)
        return refused("the expression", unpacked.number);
    printf("expression, nodes %zu\n", unpacked.count);
    return 0;
}

/* Memory for everything that can be drawn: how much is known from the lists' ends and the expression alone. */
static int reserve(const struct question *asked, struct reserved *rows)
{
    zwailmoor_bounds_result most = zwailmoor_bounds(ends, asked->lists, asked->packed, asked->packed_length);

    if (most.number != ZWAILMOOR_ACCEPTED)
        return refused("the expression", most.number);
    rows->places = (size_t)most.members + 1;
    rows->replies = malloc(rows->places * sizeof *rows->replies);
    rows->members = malloc(rows->places * sizeof *rows->members);
    if (rows->replies == NULL || rows->members == NULL) {
        (void)fprintf(stderr, "There is no memory for %zu replies.\n", rows->places);
        return 1;
    }
    printf("at most members %" PRIu32 ", moves %" PRIu32 "; reserved replies %zu\n", most.members, most.moves, rows->places);
    return 0;
}

/*
 * Every page is a run of its own: all that is kept from one to the next is the bookmark. Its replies go behind the members of the
 * page before, and where fewer places than a page are left, the last of them is for finished.
 */
static int print_members(const struct question *asked, const struct reserved *rows, size_t *shown)
{
    static const uint8_t codes[PAGE] = {ZWAILMOOR_NEXT};
    static const uint32_t arguments[PAGE] = {0};
    uint64_t bookmark = ZWAILMOOR_FIRST_BOOKMARK;
    size_t page, i;
    int finished = 0;

    for (page = 1; !finished; page++) {
        uint64_t *replies = rows->replies + *shown;
        size_t left = rows->places - *shown;
        size_t calls = left < PAGE ? left : PAGE;
        zwailmoor_run_result result =
            zwailmoor_run(numbers, asked->count, ends, asked->lists, asked->word, asked->packed, asked->packed_length, bookmark,
                          codes, calls, arguments, calls, replies, calls);

        if (result.number != ZWAILMOOR_ACCEPTED)
            return refused("the run", result.number);
        printf("page %zu from bookmark %" PRIu64 ":", page, bookmark);
        for (i = 0; i < calls && replies[i] != ZWAILMOOR_FINISHED; i++) {
            rows->members[(*shown)++] = (uint32_t)replies[i];
            printf(" %" PRIu64, replies[i]);
        }
        bookmark = result.bookmark;
        finished = i < PAGE;
        printf("%s; go on from bookmark %" PRIu64 "\n", finished ? " finished" : "", bookmark);
    }
    printf("members %zu\n", *shown);
    return 0;
}

/* A whole number; 0 on success. */
static int read_number(const char *text, uintmax_t most, uintmax_t *number)
{
    char *end;

    errno = 0;
    *number = strtoumax(text, &end, 10);
    if (*text < '0' || *text > '9' || *end != '\0' || errno != 0 || *number > most) {
        (void)fprintf(stderr, "%s is no number up to %" PRIuMAX ".\n", text, most);
        return 1;
    }
    return 0;
}

/* One number more in a list: nothing is drawn again to show the members. */
static int add_number(const struct question *asked, const struct reserved *rows, uintmax_t list, uintmax_t number, size_t shown)
{
    uint32_t result = zwailmoor_update(numbers, NUMBERS, ends, asked->lists, asked->word, asked->packed, asked->packed_length,
                                       (size_t)list, (uint32_t)number, 1, rows->members, rows->places, &shown);
    size_t i;

    if (result != ZWAILMOOR_ACCEPTED)
        return refused("the change", result);
    printf("%" PRIuMAX " added to list %" PRIuMAX "; members %zu:", number, list, shown);
    for (i = 0; i < shown; i++)
        printf(" %" PRIu32, rows->members[i]);
    printf("\n");
    return 0;
}

int main(int argc, char **argv)
{
    const char *path = argc > 1 ? argv[1] : "samples/console";
    struct question asked = {NULL, 0, 0, 0, 0};
    struct reserved rows = {0, NULL, NULL};
    size_t length = 0, shown = 0;
    uintmax_t list = 0, number = 0;
    int failed;

    if (argc == 3 || argc > 4) {
        (void)fprintf(stderr, "It takes FILE, or FILE LIST NUMBER.\n");
        return 1;
    }
    if (argc == 4 && (read_number(argv[2], SIZE_MAX, &list) != 0 || read_number(argv[3], UINT32_MAX, &number) != 0))
        return 1;
    if (read_input(path, &length) != 0 || read_delivery(length, &asked) != 0)
        return 1;
    print_lists(&asked);
    failed = read_expression(&asked);
    if (failed == 0)
        failed = reserve(&asked, &rows);
    if (failed == 0)
        failed = print_members(&asked, &rows, &shown);
    if (failed == 0 && argc == 4)
        failed = add_number(&asked, &rows, list, number, shown);
    free(rows.replies);
    free(rows.members);
    /* A print that failed is remembered by the stream, so one look at the end is enough. */
    if (fflush(stdout) != 0 || ferror(stdout)) {
        (void)fprintf(stderr, "The members could not all be printed.\n");
        return 1;
    }
    return failed;
}
