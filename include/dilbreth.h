/*
 * Dilbreth: exercise assignment of option contracts.
 *
 * Each function but dilbreth_explain and dilbreth_version answers 0, or the number of
 * the refusal that it met:
 *
 *    1  codes, accounts and numbers differ in length
 *    2  there are more than 4,096 positions
 *    3  there are no positions
 *    4  an output is too short
 *    5  a code (W) or account (P,L,R) is 0 or not rising
 *    6  a position has no short contracts
 *    7  the positions hold more than 10,000,000 contracts
 *    8  no contract is exercised
 *    9  more is exercised than the positions hold
 *   10  the draw is outside 1 to T (W) or 1 to 10,000 (L)
 *   11  the text has, or would have, over 32,768 bytes
 *   12  line 1 or line 3 is missing or not exact
 *   13  bad line 2 or position line (number: 1-10 digits)
 *   14  the method is not W, P, L or R
 *   15  there are more than 1,024 positions in a text
 *   16  a count of the day is above 10,000,000
 *   17  closing purchases exceed short plus opening sales
 *   18  more is exercised than the day's limit
 *   19  an account is 0 or stands earlier in the list
 *   20  a last number is 0 or not above the one before
 *   21  there are more than 64 jobs
 *   22  a stretch ends past the list or begins too early
 *   23  the increment is 0 or above 1,000 (W)
 *   24  the increment makes more than 1,000,000 blocks
 *
 * On a refusal nothing else is written: every list, every byte of a text and
 * every number behind a pointer is as it was before the call.
 *
 * A length counts elements (bytes for a text). The area of a list begins at
 * its pointer. No pointer may be null, that of a list of length 0 included.
 * An area that a call writes, numbers behind pointers included, may not overlap with
 * any other that it is handed; two that it only reads may.
 *
 * Any number of threads may be in any of the calls at once: no call keeps anything from
 * one time to the next, and each works only on what it is handed and on its own stack.
 * What one call writes, no other may read or write at the same time.
 *
 * 64 KB of stack that are free at the call are enough for any of them; dilbreth_respond,
 * dilbreth_allocate and dilbreth_allocate_jobs need most of that.
 * rust/compare/tests/stack.rs runs each call on a thread that has 64 KB in all, with lists
 * and texts as long as may be, in both forms, and under every method where amounts are
 * worked out.
 */
#ifndef DILBRETH_H
#define DILBRETH_H

#include <stddef.h>
#include <stdint.h>

#ifdef __cplusplus
extern "C" {
#endif

/* Raised where a signature, a constant or a length that is always enough changes, or a
   call or a constant is new; 1 was the first delivery's. The same number stands in
   dilbreth.pas, rust/dilbreth/src/version.rs, and crates/dilbreth/src/version.rt and
   specs/Version.antt. */
#define DILBRETH_VERSION 10

/* The number that the archive was built with. */
uint32_t dilbreth_version(void);

/*
 * The archive of number N has the function dilbreth_version_N too, and every file that
 * includes this header refers to the one of the header's number. So an archive of another
 * number does not link: the linker names that function as undefined.
 * A compiler without the attribute `used` may leave the reference out. With one without
 * `retain` (gcc before 11, clang before 13) the linker drops it under --gc-sections. In
 * these cases compare dilbreth_version() with DILBRETH_VERSION.
 */
#define DILBRETH_JOIN(name, number) name##number
#define DILBRETH_NUMBERED(name, number) DILBRETH_JOIN(name, number)
#ifdef __has_attribute
#if __has_attribute(retain)
#define DILBRETH_KEPT __attribute__((used, retain))
#endif
#endif
#ifndef DILBRETH_KEPT
#ifdef __GNUC__
#define DILBRETH_KEPT __attribute__((used))
#else
#define DILBRETH_KEPT
#endif
#endif

uint32_t DILBRETH_NUMBERED(dilbreth_version_, DILBRETH_VERSION)(void);
DILBRETH_KEPT static uint32_t (*const dilbreth_linked_version)(void) =
    DILBRETH_NUMBERED(dilbreth_version_, DILBRETH_VERSION);

/* The methods. */
#define DILBRETH_WHEEL ((uint8_t)'W')
#define DILBRETH_PRO_RATA ((uint8_t)'P')
#define DILBRETH_LOTTERY ((uint8_t)'L')
#define DILBRETH_REMAINDER_DRAW ((uint8_t)'R')

/* The forms of a list: what the number of a position is. In the form of shorts it is the
   position's short contracts. In the form of last numbers it is its last sequence number,
   the contracts being numbered 1 to T in list order: the position's shorts are the
   difference to the number before it (at the first position to 0), and T is the last
   number of all. Any number but 0 stands for last numbers. */
#define DILBRETH_SHORTS 0
#define DILBRETH_LAST_NUMBERS 1

/* The increment where none is given. A text without the column has it, and a caller
   hands it where the house has no other; 0 does not stand for it. */
#define DILBRETH_DEFAULT_INCREMENT 25

/*
 * Assigns the exercised contracts of one series to its short positions. A list gets the
 * same answer in both forms, but for 6 and 20.
 * Refuses 14 first, for a method that is none of the four, then 1 to 4, then, for
 * each position in turn, 5, 19 (under W only), 6 (in the form of last numbers 20 in its
 * place) and 7, then 8 and 9, then, under W only, 23, also where S equals T, and 24, where
 * S is less than T, and then, under W and L only, 10.
 *
 * method        'W' the wheel, 'P' pro rata, 'L' the starting number, 'R' the
 *               remainder draw
 * exercised     S, the contracts exercised, 1 to T
 * draw          W: the starting place, 1 to T. L: 1 to 10,000 ten-thousandths.
 *               P: any number; it decides who is served among equal decimal parts.
 *               R: any number; the starting place is (draw modulo T) + 1.
 *               Not looked at, so 0 will do, where S equals T, and where the list has
 *               one position under L or R
 * increment     W: the contracts in a block, 1 to 1,000; the blocks, S / increment
 *               rounded up, are at most 1,000,000. P, L and R: any number
 * form          0 shorts; any other number last numbers
 * codes         the identification code of each position. Under W the list stands in
 *               the order of its codes, 1 or more, rising. Under P, L and R no code is
 *               looked at
 * codes_len     the length of codes; under W equal to accounts_len, else any (0 too)
 * accounts      the account of each position, 1 or more: under P, L and R rising,
 *               under W each other than all earlier ones. A caller without codes hands
 *               the accounts as codes too
 * accounts_len  the length of accounts, 1 to 4,096
 * numbers       the short contracts of each position, 1 or more; their sum is T. Or the
 *               last number of each position, 1 or more, rising; the last of them is T.
 *               T is at most 10,000,000
 * numbers_len   the length of numbers, equal to accounts_len
 * amounts       receives the contracts assigned to each position, in list order;
 *               elements past the list are kept
 * amounts_len   the length of amounts, at least accounts_len
 * total         receives T
 * further       receives, for W, the number of blocks (0 where S equals T);
 *               for P, the contracts of round two; for L and R, the starting place
 *               (0 where S equals T or the list has one position)
 */
uint32_t dilbreth_allocate(uint8_t method, uint32_t exercised, uint32_t draw, uint32_t increment,
                           uint32_t form,
                           const uint32_t *codes, size_t codes_len,
                           const uint32_t *accounts, size_t accounts_len,
                           const uint32_t *numbers, size_t numbers_len,
                           uint32_t *amounts, size_t amounts_len,
                           uint32_t *total, uint32_t *further);

/* The most jobs of one call. */
#define DILBRETH_MOST_JOBS 64

/* What a job is answered. */
typedef struct {
    uint32_t refusal; /* 0, or the number of the refusal that the job met */
    uint32_t total;   /* T */
    uint32_t further; /* the further number of dilbreth_allocate */
} dilbreth_job_answer;

/* One series of a broker's book: its stretch of the lists, and what dilbreth_allocate takes
   for it. */
typedef struct {
    uint32_t first;     /* its first position in the lists, counted from 0 */
    uint32_t positions; /* its number of positions */
    uint8_t method;     /* 'W', 'P', 'L' or 'R' */
    uint32_t exercised; /* S */
    uint32_t draw;
    uint32_t increment; /* 0 does not stand for 25 */
    dilbreth_job_answer answer;
} dilbreth_job;

/*
 * Assigns many series in one call. All positions stand in one pair of lists, and each job
 * has a stretch of them. The stretches stand in the order of the jobs; they may touch, and
 * positions between them belong to no job. Each job is answered as dilbreth_allocate
 * answers it on lists and an output of its own, in the form of shorts and with the accounts
 * as codes. So accounts rise and T is at most 10,000,000 within a job; an account may stand
 * in several jobs.
 *
 * Refuses, before any job, 1, 2 for more than 4,096 positions in all, 4, 21, and then, for
 * each job in turn, 22, where first plus positions passes the lists' length or the stretch
 * begins before the one before it ended. Records and amounts are then kept.
 * Else it answers 0, and each job has its answer in its record. Look there: a refused job
 * is no refusal of the call, and the jobs after it go on.
 *
 * accounts      the account of each position
 * accounts_len  the length of accounts, 0 to 4,096
 * shorts        the short contracts of each position
 * shorts_len    the length of shorts, equal to accounts_len
 * jobs          the records. An allocated job has refusal 0, T and the further number
 *               written to its answer; a refused one has its number written to refusal, and
 *               keeps total and further. Nothing else of a record is written. 14 comes
 *               before a job's other refusals, and a job of 0 positions meets 3
 * jobs_len      the length of jobs, at most 64; with 0 nothing is written
 * amounts       receives the contracts assigned to each position, at its place in the lists.
 *               A refused job's stretch is kept, and so is every element that is in no
 *               stretch
 * amounts_len   the length of amounts, at least accounts_len
 *
 * A book of three series, the last of which has fewer contracts than are exercised:
 *
 *   const uint32_t accounts[10] = {1, 2, 3, 1, 2, 3, 4, 5, 2, 7};
 *   const uint32_t shorts[10] = {60, 200, 95, 5, 8, 2, 10, 11, 3, 1};
 *   dilbreth_job jobs[3] = {
 *       {0, 3, DILBRETH_WHEEL, 175, 1, DILBRETH_DEFAULT_INCREMENT, {0, 0, 0}},
 *       {3, 5, DILBRETH_LOTTERY, 13, 4855, DILBRETH_DEFAULT_INCREMENT, {0, 0, 0}},
 *       {8, 2, DILBRETH_PRO_RATA, 5, 0, DILBRETH_DEFAULT_INCREMENT, {0, 0, 0}}};
 *   uint32_t amounts[10] = {0};
 *
 *   dilbreth_allocate_jobs(accounts, 10, shorts, 10, jobs, 3, amounts, 10)
 *
 * answers 0. The jobs' answers are then {0, 355, 7}, {0, 36, 18} and {9, 0, 0}, and amounts
 * is 35, 97, 43, then 0, 0, 0, 8, 5, then 0, 0 as before the call.
 */
uint32_t dilbreth_allocate_jobs(const uint32_t *accounts, size_t accounts_len,
                                const uint32_t *shorts, size_t shorts_len,
                                dilbreth_job *jobs, size_t jobs_len,
                                uint32_t *amounts, size_t amounts_len);

/*
 * Merges two lists of one series, as two branches send them, into one. Both rise by
 * account, in the form of shorts, and so does the merged list; where both have an account
 * its shorts are added. The merged list's T is the sum of both. No codes are taken: hand
 * the merged accounts as codes where dilbreth_allocate asks for them. A wheel list in the
 * order of other codes is not merged.
 *
 * Refuses the first list's faults, which are 1 to 3 and then, for each position in turn, 5,
 * 6 and 7; then the second list's in the same order; then, of the merged list, 2, 7, and 4
 * where either output is shorter than it.
 *
 * first_accounts       the account of each position of the first list, 1 or more, rising
 * first_accounts_len   the length of first_accounts, 1 to 4,096
 * first_shorts         the short contracts of each position, 1 or more; their sum is at
 *                      most 10,000,000
 * first_shorts_len     the length of first_shorts, equal to first_accounts_len
 * second_accounts      the same of the second list
 * second_accounts_len  the length of second_accounts, 1 to 4,096
 * second_shorts        the same of the second list
 * second_shorts_len    the length of second_shorts, equal to second_accounts_len
 * accounts             receives the account of each merged position; elements past them
 *                      are kept
 * accounts_len         the length of accounts (4,096 is always enough)
 * shorts               receives the short contracts of each merged position; elements past
 *                      them are kept
 * shorts_len           the length of shorts (4,096 is always enough)
 * positions            receives the number of merged positions
 * total                receives the merged list's T
 *
 * Two branches that both have account 5:
 *
 *   const uint32_t first_accounts[3] = {2, 5, 9}, first_shorts[3] = {30, 8, 1};
 *   const uint32_t second_accounts[3] = {1, 5, 7}, second_shorts[3] = {4, 12, 20};
 *   uint32_t accounts[6] = {0}, shorts[6] = {0}, total;
 *   size_t positions;
 *
 *   dilbreth_merge(first_accounts, 3, first_shorts, 3, second_accounts, 3, second_shorts, 3,
 *                  accounts, 6, shorts, 6, &positions, &total)
 *
 * answers 0. positions is then 5 and total 75; accounts is 1, 2, 5, 7, 9 and shorts is 4,
 * 30, 20, 20, 1, each with 0 after them as before the call.
 */
uint32_t dilbreth_merge(const uint32_t *first_accounts, size_t first_accounts_len,
                        const uint32_t *first_shorts, size_t first_shorts_len,
                        const uint32_t *second_accounts, size_t second_accounts_len,
                        const uint32_t *second_shorts, size_t second_shorts_len,
                        uint32_t *accounts, size_t accounts_len,
                        uint32_t *shorts, size_t shorts_len,
                        size_t *positions, uint32_t *total);

/*
 * Reads the text of a series. Refuses 11 to 15 as the text's lines meet them,
 * and last 4 where codes, accounts or numbers is shorter than the positions of the text.
 * Line 1 may end with a column for the increment, and line 3 ends with `short` or with
 * `last`, which gives the form. A number has one to ten digits, leading zeros allowed;
 * more are 13. The series itself is not judged.
 *
 * text          the bytes of the text
 * text_len      its length, at most 32,768
 * method        receives 'W', 'P', 'L' or 'R'
 * exercised     receives S
 * draw          receives the draw
 * increment     receives the increment, 25 where line 1 has none
 * form          receives 0 for shorts, 1 for last numbers
 * codes         receives the code of each position, which is its account where line 3
 *               has no code; elements past them are kept
 * codes_len     the length of codes (1,024 is always enough)
 * accounts      receives the account of each position; elements past them are kept
 * accounts_len  the length of accounts (1,024 is always enough)
 * numbers       receives the shorts or last number of each position; elements past them
 *               are kept
 * numbers_len   the length of numbers (1,024 is always enough)
 * positions     receives the number of positions, 0 for a text without any
 */
uint32_t dilbreth_read(const uint8_t *text, size_t text_len,
                       uint8_t *method, uint32_t *exercised, uint32_t *draw, uint32_t *increment,
                       uint32_t *form,
                       uint32_t *codes, size_t codes_len,
                       uint32_t *accounts, size_t accounts_len,
                       uint32_t *numbers, size_t numbers_len,
                       size_t *positions);

/*
 * Writes the text of a series. Refuses 14 first, for a method that is none of
 * the four, then 1, then 15 for more than 1,024 positions, then 11 for a text of more
 * than 32,768 bytes, then 4 where text is shorter than what there is to write. Codes,
 * accounts, numbers, S, draw and increment are not judged. Codes are written where some
 * code is not its account, else line 3 has no code; the increment is written where it is
 * not 25, under every method, else line 1 has none. No number is written with leading
 * zeros.
 *
 * method        'W', 'P', 'L' or 'R'
 * exercised     S
 * draw          the draw
 * increment     the increment
 * form          0 shorts; any other number last numbers, and line 3 ends with `last`
 * codes         the code of each position
 * codes_len     the length of codes, equal to accounts_len
 * accounts      the account of each position
 * accounts_len  the length of accounts, at most 1,024
 * numbers       the shorts or last number of each position
 * numbers_len   the length of numbers, equal to accounts_len
 * text          receives the bytes of the text; bytes past them are kept
 * text_len      the length of text (32,768 is always enough)
 * written       receives the number of bytes written
 */
uint32_t dilbreth_write(uint8_t method, uint32_t exercised, uint32_t draw, uint32_t increment,
                        uint32_t form,
                        const uint32_t *codes, size_t codes_len,
                        const uint32_t *accounts, size_t accounts_len,
                        const uint32_t *numbers, size_t numbers_len,
                        uint8_t *text, size_t text_len,
                        size_t *written);

/*
 * Changes the text of a series into its text in the other form, with the same method, S,
 * draw, increment, codes and accounts. Refuses 11 to 15 as reading does, then, for the list
 * under the text's method, 3 and, for each position in turn, 5, 19 (under W only), 6 or 20
 * (by the text's form) and 7, then 4 where output is shorter than the changed text. S, draw
 * and increment are not judged. The changed text is written as dilbreth_write writes it and
 * can be changed back: that gives the same bytes for a text that the library wrote, and the
 * same series for any other.
 *
 * text          the bytes of the text, in either form
 * text_len      its length, at most 32,768
 * output        receives the bytes of the changed text; bytes past them are kept
 * output_len    the length of output (31,830 is always enough)
 * written       receives the number of bytes written
 */
uint32_t dilbreth_change(const uint8_t *text, size_t text_len,
                         uint8_t *output, size_t output_len,
                         size_t *written);

/*
 * Writes what the program `assign` prints for a text: the line `account,assigned`
 * and a line for each position, or, for a text or series that is refused, the line
 * `refused` and a line with the number. Under R the amounts are followed by the line
 * `account,first,last,first2,last2` and a line for each position with its two ranges:
 * the first and the last place of its contracts, then both plus T. A text and its change
 * print the same. The only refusal of this call is 4, where output is shorter than all
 * those bytes.
 *
 * text          the bytes of the text, in either form
 * text_len      its length; more than 32,768 is answered in output by 11
 * output        receives the bytes; bytes past them are kept
 * output_len    the length of output (70,705 is always enough)
 * written       receives the number of bytes written
 */
uint32_t dilbreth_respond(const uint8_t *text, size_t text_len,
                          uint8_t *output, size_t output_len,
                          size_t *written);

/* The kinds of day. Any number but 0 stands for the final trading day. */
#define DILBRETH_ORDINARY_DAY 0
#define DILBRETH_FINAL_DAY 1

/*
 * The day's activity of an investor (a firm or a customer) in one series: how many
 * contracts he may exercise that day, and what he is long and short after it, before
 * assignment. short_after, where it is not 0, is the short of his position in the
 * series. Refuses 16 to 18 in this order.
 *
 * On an ordinary day the limit is opening_long plus opening_purchases; opening sales
 * raise the short and closing purchases lower it; closing sales come after the
 * exercises, and those beyond the long that remains count as opening sales. On the
 * final trading day all trades come first: the limit is opening_long plus purchases
 * less opening_short less sales, both kinds of each, not below 0; long_after is the
 * limit less exercised, and short_after what opening_short plus sales exceed
 * opening_long plus purchases by, or 0.
 *
 * day                0 an ordinary day; any other number the final trading day
 * opening_long       the long contracts at the opening
 * opening_short      the short contracts at the opening
 * opening_purchases  bought in opening purchase transactions
 * opening_sales      sold in opening sales transactions
 * closing_purchases  bought in closing purchase transactions, at most opening_short
 *                    plus opening_sales
 * closing_sales      sold in closing sales transactions
 * exercised          the contracts to exercise, at most the limit
 * limit              receives how many contracts may be exercised
 * long_after         receives the long contracts after the day
 * short_after        receives the short contracts after the day
 *
 * Each of the seven counts is at most 10,000,000.
 */
uint32_t dilbreth_process_investor(uint32_t day,
                                   uint32_t opening_long, uint32_t opening_short,
                                   uint32_t opening_purchases, uint32_t opening_sales,
                                   uint32_t closing_purchases, uint32_t closing_sales,
                                   uint32_t exercised,
                                   uint32_t *limit,
                                   uint32_t *long_after, uint32_t *short_after);

/*
 * The day's activity of a market-maker, who does not mark his transactions as opening
 * or closing: how many contracts he may exercise that day, and no more than that.
 * Refuses 16 alone.
 *
 * On an ordinary day the limit is opening_long plus purchases; on the final trading
 * day it is that less opening_short less sales, not below 0.
 *
 * day                0 an ordinary day; any other number the final trading day
 * opening_long       the long contracts at the opening
 * opening_short      the short contracts at the opening
 * purchases          the contracts bought
 * sales              the contracts sold
 * limit              receives how many contracts may be exercised
 *
 * Each of the four counts is at most 10,000,000.
 */
uint32_t dilbreth_process_market_maker(uint32_t day,
                                       uint32_t opening_long, uint32_t opening_short,
                                       uint32_t purchases, uint32_t sales,
                                       uint32_t *limit);

/* The length of the longest line of dilbreth_explain. */
#define DILBRETH_LONGEST_EXPLANATION 50

/*
 * The words for the number of a refusal, as in the table above: answers the length
 * of a line that ends with byte 10, and writes the line where it fits. A number that
 * is no refusal's has a line that says so. A length above line_len tells that nothing
 * was written.
 *
 * number        the number
 * line          receives the line, which no byte 0 ends; a shorter line keeps its
 *               bytes, and bytes past what is written are kept
 * line_len      the length of line
 */
size_t dilbreth_explain(uint32_t number, uint8_t *line, size_t line_len);

#ifdef __cplusplus
}
#endif

#endif
