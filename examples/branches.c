/*
 * Two branches send their positions of one series: the lists are merged, and the exercised contracts are assigned to
 * the merged list pro rata. The accounts of a third branch do not rise, so that its list is refused.
 *
 * Prints the merged list and then the assigned contracts, each as a line of names and a line for each position. The
 * refused list is told on standard error, with what its number means. Exit status: 0 where nothing is refused, else 1.
 *
 *   gcc -I include examples/branches.c crates/dilbreth/out/libdilbreth.a -o branches
 */
#include <inttypes.h>
#include <stdio.h>

#include "dilbreth.h"

#define MOST_POSITIONS 4096

struct branch {
    const char *name;
    uint32_t accounts[3], shorts[3];
};

static const struct branch NORTH = {"north", {2, 5, 9}, {30, 8, 1}};
static const struct branch SOUTH = {"south", {1, 5, 7}, {4, 12, 20}};
static const struct branch WEST = {"west", {3, 8, 6}, {10, 2, 5}};

/* Long enough for any two lists. */
static uint32_t accounts[MOST_POSITIONS], shorts[MOST_POSITIONS], amounts[MOST_POSITIONS];

/* No line is longer than DILBRETH_LONGEST_EXPLANATION, and each ends with byte 10. */
static void explain(uint32_t refusal)
{
    uint8_t line[DILBRETH_LONGEST_EXPLANATION];
    size_t length = dilbreth_explain(refusal, line, sizeof line);

    fprintf(stderr, "refused, %" PRIu32 ": %.*s", refusal, (int)length, (const char *)line);
}

/* The merged list is in accounts and shorts; answers its number of positions, 0 where it is refused. */
static size_t merge(const struct branch *first, const struct branch *second)
{
    uint32_t total, refusal;
    size_t positions;

    refusal = dilbreth_merge(first->accounts, 3, first->shorts, 3, second->accounts, 3, second->shorts, 3, accounts,
                             MOST_POSITIONS, shorts, MOST_POSITIONS, &positions, &total);
    if (refusal == 0)
        return positions;
    fprintf(stderr, "branches: %s and %s: ", first->name, second->name);
    explain(refusal);
    return 0;
}

static void print(const char *name, const uint32_t *numbers, size_t positions)
{
    size_t i;

    printf("account,%s\n", name);
    for (i = 0; i < positions; i++)
        printf("%" PRIu32 ",%" PRIu32 "\n", accounts[i], numbers[i]);
}

/* Pro rata the list needs no codes; under W hand the accounts in their place. */
static int assign(uint32_t exercised, uint32_t draw, size_t positions)
{
    uint32_t total, further, refusal;

    refusal = dilbreth_allocate(DILBRETH_PRO_RATA, exercised, draw, DILBRETH_DEFAULT_INCREMENT, DILBRETH_SHORTS,
                                accounts, positions, accounts, positions, shorts, positions, amounts, positions,
                                &total, &further);
    if (refusal == 0) {
        print("assigned", amounts, positions);
        return 0;
    }
    fputs("branches: ", stderr);
    explain(refusal);
    return 1;
}

int main(void)
{
    int status = 0;
    size_t positions = merge(&NORTH, &SOUTH);

    if (positions > 0) {
        print("short", shorts, positions);
        status = assign(40, 0, positions);
    }
    if (positions == 0 || merge(&NORTH, &WEST) == 0)
        status = 1;
    if (fflush(stdout) != 0 || ferror(stdout)) {
        fputs("branches: the output could not be written\n", stderr);
        return 1;
    }
    return status;
}
