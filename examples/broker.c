/*
 * A broker's book of three series in one call: by the wheel, by the starting number, and pro rata with more contracts
 * exercised than the positions hold.
 *
 * Prints a line of names and a line for each position of the series that are allocated, zero amounts too. A refused
 * series is told on standard error, with what its number means. Exit status: 0 where all are allocated, else 1.
 *
 *   gcc -I include examples/broker.c crates/dilbreth/out/libdilbreth.a -o broker
 */
#include <inttypes.h>
#include <stdio.h>

#include "dilbreth.h"

#define POSITIONS 10
#define SERIES 3

static const uint32_t ACCOUNTS[POSITIONS] = {1, 2, 3, 1, 2, 3, 4, 5, 2, 7};
static const uint32_t SHORTS[POSITIONS] = {60, 200, 95, 5, 8, 2, 10, 11, 3, 1};

/* First position and number of positions, method, S, draw, increment, and what the call answers. */
static dilbreth_job jobs[SERIES] = {
    {0, 3, DILBRETH_WHEEL, 175, 1, DILBRETH_DEFAULT_INCREMENT, {0, 0, 0}},
    {3, 5, DILBRETH_LOTTERY, 13, 4855, DILBRETH_DEFAULT_INCREMENT, {0, 0, 0}},
    {8, 2, DILBRETH_PRO_RATA, 5, 0, DILBRETH_DEFAULT_INCREMENT, {0, 0, 0}}};

/* No line is longer than DILBRETH_LONGEST_EXPLANATION, and each ends with byte 10. */
static void explain(uint32_t refusal)
{
    uint8_t line[DILBRETH_LONGEST_EXPLANATION];
    size_t length = dilbreth_explain(refusal, line, sizeof line);

    fprintf(stderr, "refused, %" PRIu32 ": %.*s", refusal, (int)length, (const char *)line);
}

int main(void)
{
    uint32_t amounts[POSITIONS], refusal, i, at;
    int status = 0;

    /* The call itself is refused where the lists or the stretches are wrong; no series is then looked at. */
    refusal = dilbreth_allocate_jobs(ACCOUNTS, POSITIONS, SHORTS, POSITIONS, jobs, SERIES, amounts, POSITIONS);
    if (refusal != 0) {
        fputs("broker: the book: ", stderr);
        explain(refusal);
        return 1;
    }
    puts("series,account,assigned");
    for (i = 0; i < SERIES; i++) {
        if (jobs[i].answer.refusal != 0) {
            fprintf(stderr, "broker: series %" PRIu32 ": ", i + 1);
            explain(jobs[i].answer.refusal);
            status = 1;
            continue;
        }
        for (at = jobs[i].first; at < jobs[i].first + jobs[i].positions; at++)
            printf("%" PRIu32 ",%" PRIu32 ",%" PRIu32 "\n", i + 1, ACCOUNTS[at], amounts[at]);
    }
    if (fflush(stdout) != 0 || ferror(stdout)) {
        fputs("broker: the output could not be written\n", stderr);
        return 1;
    }
    return status;
}
