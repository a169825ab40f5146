/*
 * The day's activity of an investor or a market-maker in one series:
 *
 *   day investor ordinary|final OPENING_LONG OPENING_SHORT OPENING_PURCHASES OPENING_SALES
 *       CLOSING_PURCHASES CLOSING_SALES EXERCISED
 *   day market-maker ordinary|final OPENING_LONG OPENING_SHORT PURCHASES SALES
 *
 * Prints a line of names and a line of numbers: how many contracts may be exercised (limit) and, for an investor, what
 * he is long and short after the day. A refused day prints `refused` and the number, and on standard error what it
 * means. Each count is one to ten digits. Exit status: 0 for a result, 1 for a refusal or an output that could not be
 * written, 2 for wrong arguments.
 *
 *   gcc -I include examples/day.c crates/dilbreth/out/libdilbreth.a -o day
 */
#include <inttypes.h>
#include <stdio.h>
#include <string.h>

#include "dilbreth.h"

static int usage(void)
{
    fputs("usage: day investor ordinary|final OPENING_LONG OPENING_SHORT OPENING_PURCHASES OPENING_SALES"
          " CLOSING_PURCHASES CLOSING_SALES EXERCISED\n"
          "       day market-maker ordinary|final OPENING_LONG OPENING_SHORT PURCHASES SALES\n"
          "a count is one to ten digits, at most 4294967295\n",
          stderr);
    return 2;
}

/* Reads a count; answers whether the word is one. */
static int read_count(const char *word, uint32_t *count)
{
    size_t i, digits = strlen(word);
    uint64_t value = 0;

    if (digits < 1 || digits > 10)
        return 0;
    for (i = 0; i < digits; i++) {
        if (word[i] < '0' || word[i] > '9')
            return 0;
        value = 10 * value + (uint64_t)(word[i] - '0');
    }
    *count = (uint32_t)value;
    return value <= UINT32_MAX;
}

/* No line is longer than DILBRETH_LONGEST_EXPLANATION, and each ends with byte 10. */
static void explain(uint32_t refusal)
{
    uint8_t line[DILBRETH_LONGEST_EXPLANATION];
    size_t length = dilbreth_explain(refusal, line, sizeof line);

    fprintf(stderr, "day: refused, %" PRIu32 ": %.*s", refusal, (int)length, (const char *)line);
}

int main(int argc, char **argv)
{
    uint32_t n[7], day, refusal, limit, long_after, short_after;
    int investor, counts, i;

    if (argc < 3)
        return usage();
    investor = strcmp(argv[1], "investor") == 0;
    if (!investor && strcmp(argv[1], "market-maker") != 0)
        return usage();
    day = strcmp(argv[2], "ordinary") == 0 ? DILBRETH_ORDINARY_DAY : DILBRETH_FINAL_DAY;
    if (day == DILBRETH_FINAL_DAY && strcmp(argv[2], "final") != 0)
        return usage();
    counts = investor ? 7 : 4;
    if (argc != 3 + counts)
        return usage();
    for (i = 0; i < counts; i++)
        if (!read_count(argv[3 + i], &n[i]))
            return usage();

    /* A refused call writes to none of the numbers behind the pointers. */
    if (investor)
        refusal = dilbreth_process_investor(day, n[0], n[1], n[2], n[3], n[4], n[5], n[6],
                                            &limit, &long_after, &short_after);
    else
        refusal = dilbreth_process_market_maker(day, n[0], n[1], n[2], n[3], &limit);

    if (refusal != 0)
        printf("refused\n%" PRIu32 "\n", refusal);
    else if (investor)
        printf("limit,long,short\n%" PRIu32 ",%" PRIu32 ",%" PRIu32 "\n", limit, long_after, short_after);
    else
        printf("limit\n%" PRIu32 "\n", limit);
    if (fflush(stdout) != 0 || ferror(stdout)) {
        fputs("day: the output could not be written\n", stderr);
        return 1;
    }
    if (refusal != 0)
        explain(refusal);
    return refusal != 0;
}
