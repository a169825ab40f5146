/* The archive and its header, from C: case M, starred series in both forms, series that need no draw, leading zeros,
   codes, the exhibit of the remainder draw, last numbers and the change, other increments, a broker's book, merged
   lists, the circular's days, a refusal of each call, the words for a refusal. */
#include <inttypes.h>
#include <stddef.h>
#include <stdio.h>
#include <string.h>

#include "dilbreth.h"

static int wrong;

static void see(const char *what, int holds)
{
    printf("%s: %s\n", what, holds ? "ok" : "WRONG");
    if (!holds)
        wrong++;
}

static const char M[] = "method,exercised,draw\nL,13,4855\naccount,short\n1,5\n2,8\n3,2\n4,10\n5,11\n";
static const char M_ASSIGNED[] = "account,assigned\n1,0\n2,0\n3,0\n4,8\n5,5\n";

static const uint32_t ACCOUNTS[5] = {1, 2, 3, 4, 5};

struct series {
    const char *name;
    uint8_t method;
    size_t count;
    uint32_t shorts[5], exercised, draw, increment, amounts[5], total, further;
};

static const struct series KNOWN[] = {
    {"A", DILBRETH_WHEEL, 3, {60, 200, 95}, 175, 1, 25, {35, 97, 43}, 355, 7},
    {"B", DILBRETH_WHEEL, 3, {60, 200, 95}, 175, 340, 25, {34, 98, 43}, 355, 7},
    {"C", DILBRETH_WHEEL, 2, {10, 20}, 26, 29, 25, {10, 16}, 30, 2},
    {"E", DILBRETH_WHEEL, 3, {76, 1, 77}, 150, 1, 25, {75, 0, 75}, 154, 6},
    {"G", DILBRETH_PRO_RATA, 1, {3}, 1, 0, 25, {1}, 3, 1},
    {"H", DILBRETH_PRO_RATA, 3, {1, 1, 1}, 1, 5, 25, {0, 0, 1}, 3, 1},
    {"K", DILBRETH_PRO_RATA, 3, {3, 1, 2}, 2, 0, 25, {1, 0, 1}, 6, 2},
    {"M", DILBRETH_LOTTERY, 5, {5, 8, 2, 10, 11}, 13, 4855, 25, {0, 0, 0, 8, 5}, 36, 18},
    {"N", DILBRETH_LOTTERY, 5, {5, 8, 2, 10, 11}, 2, 10000, 25, {1, 0, 0, 0, 1}, 36, 36},
    {"W, whole, no draw", DILBRETH_WHEEL, 5, {5, 8, 2, 10, 11}, 36, 0, 25, {5, 8, 2, 10, 11}, 36, 0},
    {"L, whole, no draw", DILBRETH_LOTTERY, 5, {5, 8, 2, 10, 11}, 36, 0, 25, {5, 8, 2, 10, 11}, 36, 0},
    {"L, one, no draw", DILBRETH_LOTTERY, 1, {36}, 13, 0, 25, {13}, 36, 0},
    {"R", DILBRETH_REMAINDER_DRAW, 5, {5, 8, 2, 10, 11}, 13, 17, 25, {0, 0, 0, 8, 5}, 36, 18},
    {"R, draw 0", DILBRETH_REMAINDER_DRAW, 5, {5, 8, 2, 10, 11}, 13, 0, 25, {5, 8, 0, 0, 0}, 36, 1},
    {"R, the largest draw", DILBRETH_REMAINDER_DRAW, 5, {5, 8, 2, 10, 11}, 3, UINT32_MAX, 25, {2, 1, 0, 0, 0}, 36, 4},
    {"R, whole", DILBRETH_REMAINDER_DRAW, 5, {5, 8, 2, 10, 11}, 36, 17, 25, {5, 8, 2, 10, 11}, 36, 0},
    {"R, one", DILBRETH_REMAINDER_DRAW, 1, {36}, 13, 17, 25, {13}, 36, 0},
    {"W by tens", DILBRETH_WHEEL, 3, {60, 200, 95}, 65, 340, 10, {10, 40, 15}, 355, 7},
    {"W by thousands", DILBRETH_WHEEL, 3, {60, 200, 95}, 175, 300, 1000, {60, 59, 56}, 355, 1},
    {"W by ones", DILBRETH_WHEEL, 3, {2, 1, 3}, 4, 2, 1, {1, 1, 2}, 6, 4},
    {"L, increment 0", DILBRETH_LOTTERY, 5, {5, 8, 2, 10, 11}, 13, 4855, 0, {0, 0, 0, 8, 5}, 36, 18},
    {"R, any increment", DILBRETH_REMAINDER_DRAW, 5, {5, 8, 2, 10, 11}, 13, 17, UINT32_MAX, {0, 0, 0, 8, 5}, 36, 18},
};

static void known_in(const struct series *s, uint32_t form, const uint32_t *numbers)
{
    uint32_t amounts[6], total = 77, further = 77, number;
    char what[64];
    size_t i;
    int holds;

    for (i = 0; i < 6; i++)
        amounts[i] = 999;
    number = dilbreth_allocate(s->method, s->exercised, s->draw, s->increment, form, ACCOUNTS, s->count, ACCOUNTS,
                               s->count, numbers, s->count, amounts, 6, &total, &further);
    holds = number == 0 && total == s->total && further == s->further;
    for (i = 0; i < 6; i++)
        holds = holds && amounts[i] == (i < s->count ? s->amounts[i] : 999);
    snprintf(what, sizeof what, "series %s, form %" PRIu32, s->name, form);
    see(what, holds);
}

static void known(const struct series *s)
{
    uint32_t lasts[5] = {0}, last = 0;
    size_t i;

    for (i = 0; i < s->count; i++) {
        last += s->shorts[i];
        lasts[i] = last;
    }
    known_in(s, DILBRETH_SHORTS, s->shorts);
    known_in(s, DILBRETH_LAST_NUMBERS, lasts);
    known_in(s, 256, lasts);
}

static void case_m(void)
{
    const size_t length = sizeof M - 1, printed = sizeof M_ASSIGNED - 1;
    uint32_t codes[6] = {0}, accounts[6] = {0}, shorts[6] = {0}, exercised = 0, draw = 0, increment = 0, form = 9;
    uint8_t method = 0, text[100], output[100];
    size_t positions = 0, written = 0;

    codes[5] = accounts[5] = shorts[5] = 999;
    see("case M read", dilbreth_read((const uint8_t *)M, length, &method, &exercised, &draw, &increment, &form, codes,
                                     6, accounts, 6, shorts, 6, &positions) == 0 &&
                           method == 'L' && exercised == 13 && draw == 4855 &&
                           increment == DILBRETH_DEFAULT_INCREMENT && form == DILBRETH_SHORTS && positions == 5 &&
                           memcmp(codes, ACCOUNTS, sizeof ACCOUNTS) == 0 &&
                           memcmp(accounts, ACCOUNTS, sizeof ACCOUNTS) == 0 && shorts[0] == 5 && shorts[1] == 8 &&
                           shorts[2] == 2 && shorts[3] == 10 && shorts[4] == 11 && codes[5] == 999 &&
                           accounts[5] == 999 && shorts[5] == 999);
    memset(text, 0xEE, sizeof text);
    see("case M written", dilbreth_write('L', 13, 4855, DILBRETH_DEFAULT_INCREMENT, form, codes, 5, accounts, 5, shorts,
                                         5, text, sizeof text, &written) == 0 &&
                              written == length && memcmp(text, M, length) == 0 && text[length] == 0xEE);
    memset(output, 0xEE, sizeof output);
    see("case M responded to",
        dilbreth_respond((const uint8_t *)M, length, output, sizeof output, &written) == 0 && written == printed &&
            memcmp(output, M_ASSIGNED, printed) == 0 && output[printed] == 0xEE);
}

static void leading_zeros(void)
{
    static const char SPELLED[] = "method,exercised,draw\nP,0000000004,00\naccount,short\n0001,5\n0012,003\n";
    static const char WRITTEN[] = "method,exercised,draw\nP,4,0\naccount,short\n1,5\n12,3\n";
    static const char ELEVEN[] = "method,exercised,draw\nP,4,0\naccount,short\n00000000001,5\n";
    static const char TWICE[] = "method,exercised,draw\nP,4,0\naccount,short\n1,5\n0001,3\n";
    uint32_t codes[2] = {0}, accounts[2] = {0}, shorts[2] = {0}, exercised = 0, draw = 9, increment = 0, form = 9;
    uint8_t method = 0, text[100];
    size_t positions = 0, written = 0;

    see("read leading zeros", dilbreth_read((const uint8_t *)SPELLED, sizeof SPELLED - 1, &method, &exercised, &draw,
                                            &increment, &form, codes, 2, accounts, 2, shorts, 2, &positions) == 0 &&
                                  method == 'P' && exercised == 4 && draw == 0 && positions == 2 &&
                                  accounts[0] == 1 && accounts[1] == 12 && shorts[0] == 5 && shorts[1] == 3);
    see("write no leading zeros",
        dilbreth_write(method, exercised, draw, increment, form, codes, 2, accounts, 2, shorts, 2, text, sizeof text,
                       &written) == 0 &&
            written == sizeof WRITTEN - 1 && memcmp(text, WRITTEN, written) == 0);
    see("read refuses 13 for eleven digits",
        dilbreth_read((const uint8_t *)ELEVEN, sizeof ELEVEN - 1, &method, &exercised, &draw, &increment, &form, codes,
                      2, accounts, 2, shorts, 2, &positions) == 13);
    see("respond with 5 to an account in two spellings",
        dilbreth_respond((const uint8_t *)TWICE, sizeof TWICE - 1, text, sizeof text, &written) == 0 &&
            written == 10 && memcmp(text, "refused\n5\n", 10) == 0);
}

static void by_codes(void)
{
    static const char CODED[] =
        "method,exercised,draw\nW,175,1\ncode,account,short\n10,500,60\n20,700,200\n30,100,95\n";
    static const char ASSIGNED[] = "account,assigned\n500,35\n700,97\n100,43\n";
    uint32_t codes[3] = {0}, accounts[3] = {0}, shorts[3] = {0}, amounts[3] = {9, 9, 9};
    uint32_t exercised = 0, draw = 0, increment = 0, form = 9, total = 0, further = 0;
    uint8_t method = 0, text[100];
    size_t positions = 0, written = 0;

    see("read codes", dilbreth_read((const uint8_t *)CODED, sizeof CODED - 1, &method, &exercised, &draw, &increment,
                                    &form, codes, 3, accounts, 3, shorts, 3, &positions) == 0 &&
                          method == 'W' && positions == 3 && codes[0] == 10 && codes[1] == 20 && codes[2] == 30 &&
                          accounts[0] == 500 && accounts[1] == 700 && accounts[2] == 100 && shorts[2] == 95);
    see("allocate by codes", dilbreth_allocate(method, exercised, draw, increment, form, codes, 3, accounts, 3, shorts,
                                               3, amounts, 3, &total, &further) == 0 &&
                                 total == 355 && further == 7 && amounts[0] == 35 && amounts[1] == 97 &&
                                 amounts[2] == 43);
    see("write codes", dilbreth_write(method, exercised, draw, increment, form, codes, 3, accounts, 3, shorts, 3, text,
                                      sizeof text, &written) == 0 &&
                           written == sizeof CODED - 1 && memcmp(text, CODED, written) == 0);
    see("respond in code order",
        dilbreth_respond((const uint8_t *)CODED, sizeof CODED - 1, text, sizeof text, &written) == 0 &&
            written == sizeof ASSIGNED - 1 && memcmp(text, ASSIGNED, written) == 0);
    see("allocate refuses 1 for codes of another length under W",
        dilbreth_allocate('W', 1, 1, DILBRETH_DEFAULT_INCREMENT, form, codes, 2, accounts, 3, shorts, 3, amounts, 3,
                          &total, &further) == 1);
    see("allocate refuses 5 for accounts that fall under L, with no code",
        dilbreth_allocate('L', 1, 1, DILBRETH_DEFAULT_INCREMENT, form, codes, 0, accounts, 3, shorts, 3, amounts, 3,
                          &total, &further) == 5);
    accounts[2] = 500;
    see("allocate refuses 19",
        dilbreth_allocate('W', 1, 1, DILBRETH_DEFAULT_INCREMENT, form, codes, 3, accounts, 3, shorts, 3, amounts, 3,
                          &total, &further) == 19);
    codes[2] = 20;
    see("allocate refuses 5 before 19",
        dilbreth_allocate('W', 1, 1, DILBRETH_DEFAULT_INCREMENT, form, codes, 3, accounts, 3, shorts, 3, amounts, 3,
                          &total, &further) == 5);
    see("write refuses 1 for codes of another length",
        dilbreth_write('L', 1, 1, DILBRETH_DEFAULT_INCREMENT, form, codes, 2, accounts, 3, shorts, 3, text, sizeof text,
                       &written) == 1);
}

static void exhibit(void)
{
    static const char TEXT[] = "method,exercised,draw\nR,50,395\naccount,short\n1,1\n2,50\n3,100\n4,2\n5,1\n6,1\n"
                               "7,1000\n8,1\n9,10\n10,20\n";
    static const char PRINTED[] = "account,assigned\n1,0\n2,0\n3,0\n4,0\n5,0\n6,0\n7,50\n8,0\n9,0\n10,0\n"
                                  "account,first,last,first2,last2\n1,1,1,1187,1187\n2,2,51,1188,1237\n"
                                  "3,52,151,1238,1337\n4,152,153,1338,1339\n5,154,154,1340,1340\n"
                                  "6,155,155,1341,1341\n7,156,1155,1342,2341\n8,1156,1156,2342,2342\n"
                                  "9,1157,1166,2343,2352\n10,1167,1186,2353,2372\n";
    const size_t printed = sizeof PRINTED - 1;
    uint32_t codes[10], accounts[10], shorts[10], amounts[10], exercised = 0, draw = 0, increment = 0, form = 9;
    uint32_t total = 0, further = 0;
    uint8_t method = 0, output[400], before[400];
    size_t positions = 0, written = 9;

    memset(output, 0xEE, sizeof output);
    memset(before, 0xEE, sizeof before);
    see("exhibit read", dilbreth_read((const uint8_t *)TEXT, sizeof TEXT - 1, &method, &exercised, &draw, &increment,
                                      &form, codes, 10, accounts, 10, shorts, 10, &positions) == 0 &&
                            method == DILBRETH_REMAINDER_DRAW && exercised == 50 && draw == 395 && positions == 10);
    see("exhibit allocated without a code",
        dilbreth_allocate(method, exercised, draw, increment, form, codes, 0, accounts, 10, shorts, 10, amounts, 10,
                          &total, &further) == 0 &&
            total == 1186 && further == 396 && amounts[0] == 0 && amounts[6] == 50 && amounts[9] == 0);
    see("exhibit responded to by 4 where the output is a byte too short",
        dilbreth_respond((const uint8_t *)TEXT, sizeof TEXT - 1, output, printed - 1, &written) == 4 && written == 9 &&
            memcmp(output, before, sizeof output) == 0);
    see("exhibit responded to with its ranges",
        dilbreth_respond((const uint8_t *)TEXT, sizeof TEXT - 1, output, sizeof output, &written) == 0 &&
            written == printed && memcmp(output, PRINTED, printed) == 0 && output[printed] == 0xEE);
}

struct changed {
    const char *name, *from, *to;
};

static const struct changed CHANGES[] = {
    {"the source's table", "L,13,4855\naccount,last\n1,5\n2,13\n3,15\n4,25\n5,36\n",
     "L,13,4855\naccount,short\n1,5\n2,8\n3,2\n4,10\n5,11\n"},
    {"with codes", "W,175,1\ncode,account,short\n10,500,60\n20,700,200\n30,100,95\n",
     "W,175,1\ncode,account,last\n10,500,60\n20,700,260\n30,100,355\n"},
    {"any S and draw", "W,0,4294967295\naccount,short\n7,10000000\n", "W,0,4294967295\naccount,last\n7,10000000\n"},
    {"by tens", "W,65,340,10\naccount,short\n1,60\n2,200\n3,95\n", "W,65,340,10\naccount,last\n1,60\n2,260\n3,355\n"},
    {"any increment", "W,1,1,0\naccount,last\n7,9\n", "W,1,1,0\naccount,short\n7,9\n"},
};

/* A text from line 2 on as a whole text, with the increment in line 1 where line 2 has four fields; answers its
   length. */
static size_t whole(char *text, const char *rest)
{
    size_t commas = 0, i;

    for (i = 0; rest[i] != '\n'; i++)
        commas += rest[i] == ',';
    return (size_t)sprintf(text, "method,exercised,draw%s\n%s", commas == 3 ? ",increment" : "", rest);
}

static void changes(const struct changed *c)
{
    const char *from = c->from, *to = c->to, *next;
    char what[80], text[100], expected[100];
    uint8_t output[100], before[100];
    size_t back, length, needed, written;

    memset(before, 0xEE, sizeof before);
    for (back = 0; back < 2; back++) {
        length = whole(text, from);
        needed = whole(expected, to);
        memset(output, 0xEE, sizeof output);
        written = 9;
        snprintf(what, sizeof what, "change refuses 4, %s%s", c->name, back ? ", back" : "");
        see(what, dilbreth_change((const uint8_t *)text, length, output, needed - 1, &written) == 4 && written == 9 &&
                      memcmp(output, before, sizeof output) == 0);
        snprintf(what, sizeof what, "change, %s%s", c->name, back ? ", back" : "");
        see(what, dilbreth_change((const uint8_t *)text, length, output, sizeof output, &written) == 0 &&
                      written == needed && memcmp(output, expected, needed) == 0 && output[needed] == 0xEE);
        next = from;
        from = to;
        to = next;
    }
}

static void last_numbers(void)
{
    uint32_t codes[5] = {0}, accounts[5] = {0}, lasts[5] = {0}, amounts[5] = {9, 9, 9, 9, 9};
    uint32_t exercised = 0, draw = 0, increment = 0, form = 9, total = 77, further = 78;
    uint8_t method = 0, text[100], output[100];
    size_t length = whole((char *)text, CHANGES[0].from), positions = 0, written = 9, i;

    see("read last numbers", dilbreth_read(text, length, &method, &exercised, &draw, &increment, &form, codes, 5,
                                           accounts, 5, lasts, 5, &positions) == 0 &&
                                 form == DILBRETH_LAST_NUMBERS && method == 'L' && exercised == 13 && draw == 4855 &&
                                 positions == 5 && codes[4] == 5 && accounts[4] == 5 && lasts[0] == 5 &&
                                 lasts[1] == 13 && lasts[4] == 36);
    see("write last numbers", dilbreth_write(method, exercised, draw, increment, form, codes, 5, accounts, 5, lasts, 5,
                                             output, sizeof output, &written) == 0 &&
                                  written == length && memcmp(output, text, length) == 0);
    see("respond to last numbers", dilbreth_respond(text, length, output, sizeof output, &written) == 0 &&
                                       written == sizeof M_ASSIGNED - 1 && memcmp(output, M_ASSIGNED, written) == 0);
    lasts[2] = 13;
    see("allocate refuses 20", dilbreth_allocate('P', 1, 1, DILBRETH_DEFAULT_INCREMENT, form, codes, 0, accounts, 5,
                                                 lasts, 5, amounts, 5, &total, &further) == 20 &&
                                   total == 77 && further == 78 && amounts[0] == 9);
    lasts[0] = 0;
    see("allocate refuses 6 in the form of shorts",
        dilbreth_allocate('P', 1, 1, DILBRETH_DEFAULT_INCREMENT, DILBRETH_SHORTS, codes, 0, accounts, 5, lasts, 5,
                          amounts, 5, &total, &further) == 6);
    see("write judges no last number", dilbreth_write('P', 1, 1, DILBRETH_DEFAULT_INCREMENT, form, codes, 5, accounts,
                                                      5, lasts, 5, text, sizeof text, &written) == 0);
    see("change refuses 20", dilbreth_change(text, written, output, sizeof output, &written) == 20);
    see("change refuses 12", dilbreth_change(text, 0, output, sizeof output, &written) == 12);
    for (i = 0; i < sizeof CHANGES / sizeof CHANGES[0]; i++)
        changes(&CHANGES[i]);
}

/* No two numbers of line 2 are equal, so each must reach its place. */
static void increments(void)
{
    static const char BY_TENS[] = "method,exercised,draw,increment\nW,65,340,10\naccount,short\n1,60\n2,200\n3,95\n";
    static const char BY_25[] = "method,exercised,draw\nW,65,340\naccount,short\n1,60\n2,200\n3,95\n";
    static const char ASSIGNED[] = "account,assigned\n1,10\n2,40\n3,15\n";
    const size_t length = sizeof BY_TENS - 1;
    uint32_t codes[3] = {0}, accounts[3] = {0}, shorts[3] = {0}, amounts[3] = {9, 9, 9};
    uint32_t exercised = 0, draw = 0, increment = 0, form = 9, total = 0, further = 0;
    uint8_t method = 0, text[100];
    size_t positions = 0, written = 0;

    see("read an increment", dilbreth_read((const uint8_t *)BY_TENS, length, &method, &exercised, &draw, &increment,
                                           &form, codes, 3, accounts, 3, shorts, 3, &positions) == 0 &&
                                 method == 'W' && exercised == 65 && draw == 340 && increment == 10 &&
                                 form == DILBRETH_SHORTS && positions == 3 && shorts[2] == 95);
    see("allocate by tens", dilbreth_allocate(method, exercised, draw, increment, form, codes, 3, accounts, 3, shorts,
                                              3, amounts, 3, &total, &further) == 0 &&
                                total == 355 && further == 7 && amounts[0] == 10 && amounts[1] == 40 &&
                                amounts[2] == 15);
    see("write an increment", dilbreth_write(method, exercised, draw, increment, form, codes, 3, accounts, 3, shorts, 3,
                                             text, sizeof text, &written) == 0 &&
                                  written == length && memcmp(text, BY_TENS, length) == 0);
    see("write no increment of 25", dilbreth_write(method, exercised, draw, DILBRETH_DEFAULT_INCREMENT, form, codes, 3,
                                                   accounts, 3, shorts, 3, text, sizeof text, &written) == 0 &&
                                        written == sizeof BY_25 - 1 && memcmp(text, BY_25, written) == 0);
    see("respond by tens",
        dilbreth_respond((const uint8_t *)BY_TENS, length, text, sizeof text, &written) == 0 &&
            written == sizeof ASSIGNED - 1 && memcmp(text, ASSIGNED, written) == 0);
    see("allocate refuses 23 for 0, also where S equals T",
        dilbreth_allocate('W', 355, 0, 0, form, codes, 3, accounts, 3, shorts, 3, amounts, 3, &total, &further) == 23);
    see("allocate refuses 23 for 1,001, before 10",
        dilbreth_allocate('W', 65, 0, 1001, form, codes, 3, accounts, 3, shorts, 3, amounts, 3, &total,
                          &further) == 23);
    see("allocate refuses 9 before 23",
        dilbreth_allocate('W', 356, 0, 0, form, codes, 3, accounts, 3, shorts, 3, amounts, 3, &total, &further) == 9);
    shorts[1] = 1000000;
    see("allocate refuses 24, before 10",
        dilbreth_allocate('W', 1000001, 0, 1, form, codes, 3, accounts, 3, shorts, 3, amounts, 3, &total,
                          &further) == 24);
    see("allocate 1,000,000 blocks",
        dilbreth_allocate('W', 1000000, 340, 1, form, codes, 3, accounts, 3, shorts, 3, amounts, 3, &total,
                          &further) == 0 &&
            total == 1000155 && further == 1000000);
}

/* The numbers that tests/pascal and rust/compare/tests/jobs.rs have too. */
static void layout_of_a_job(void)
{
    see("the layout of a job",
        sizeof(dilbreth_job) == 36 && offsetof(dilbreth_job, first) == 0 && offsetof(dilbreth_job, positions) == 4 &&
            offsetof(dilbreth_job, method) == 8 && offsetof(dilbreth_job, exercised) == 12 &&
            offsetof(dilbreth_job, draw) == 16 && offsetof(dilbreth_job, increment) == 20 &&
            offsetof(dilbreth_job, answer) == 24);
    see("the layout of a job's answer",
        sizeof(dilbreth_job_answer) == 12 && offsetof(dilbreth_job_answer, refusal) == 0 &&
            offsetof(dilbreth_job_answer, total) == 4 && offsetof(dilbreth_job_answer, further) == 8);
}

/* Whether a record is the job with this answer. */
static int answered(const dilbreth_job *record, const dilbreth_job *job, uint32_t refusal, uint32_t total,
                    uint32_t further)
{
    return record->first == job->first && record->positions == job->positions && record->method == job->method &&
           record->exercised == job->exercised && record->draw == job->draw && record->increment == job->increment &&
           record->answer.refusal == refusal && record->answer.total == total && record->answer.further == further;
}

/* The book that the header shows, with a position of no job and a job by tens. */
static const uint32_t BOOK_ACCOUNTS[14] = {1, 2, 3, 1, 2, 3, 4, 5, 2, 7, 0, 6, 7, 8};
static const uint32_t BOOK_SHORTS[14] = {60, 200, 95, 5, 8, 2, 10, 11, 3, 1, 0, 60, 200, 95};
static const dilbreth_job BOOK[4] = {
    {0, 3, DILBRETH_WHEEL, 175, 1, DILBRETH_DEFAULT_INCREMENT, {77, 78, 79}},
    {3, 5, DILBRETH_LOTTERY, 13, 4855, DILBRETH_DEFAULT_INCREMENT, {77, 78, 79}},
    {8, 2, DILBRETH_PRO_RATA, 5, 0, DILBRETH_DEFAULT_INCREMENT, {77, 78, 79}},
    {11, 3, DILBRETH_WHEEL, 65, 340, 10, {77, 78, 79}}};

static void book(void)
{
    static const uint32_t expected[15] = {35, 97, 43, 0, 0, 0, 8, 5, 9, 9, 9, 10, 40, 15, 9};
    uint32_t amounts[15];
    dilbreth_job jobs[4];
    size_t i;

    memcpy(jobs, BOOK, sizeof jobs);
    for (i = 0; i < 15; i++)
        amounts[i] = 9;
    see("a book", dilbreth_allocate_jobs(BOOK_ACCOUNTS, 14, BOOK_SHORTS, 14, jobs, 4, amounts, 15) == 0 &&
                      answered(&jobs[0], &BOOK[0], 0, 355, 7) && answered(&jobs[1], &BOOK[1], 0, 36, 18) &&
                      answered(&jobs[3], &BOOK[3], 0, 355, 7) && memcmp(amounts, expected, sizeof amounts) == 0);
    see("a refused job of a book keeps T and the further number", answered(&jobs[2], &BOOK[2], 9, 78, 79));
    jobs[0].method = 'X';
    jobs[0].positions = 0;
    see("a job refuses 14 before 3, and the next goes on",
        dilbreth_allocate_jobs(BOOK_ACCOUNTS, 14, BOOK_SHORTS, 14, jobs, 2, amounts, 15) == 0 &&
            jobs[0].answer.refusal == 14 && jobs[0].answer.total == 355 && jobs[1].answer.refusal == 0);
}

static void refused_books(void)
{
    dilbreth_job jobs[4], many[DILBRETH_MOST_JOBS + 1];
    uint32_t amounts[15], before[15];
    size_t i;
    int kept;

    memcpy(jobs, BOOK, sizeof jobs);
    for (i = 0; i < sizeof many / sizeof many[0]; i++)
        many[i] = BOOK[0];
    for (i = 0; i < 15; i++)
        amounts[i] = before[i] = 9;
    see("jobs refuse 1", dilbreth_allocate_jobs(BOOK_ACCOUNTS, 14, BOOK_SHORTS, 13, jobs, 4, amounts, 15) == 1);
    see("jobs refuse 4", dilbreth_allocate_jobs(BOOK_ACCOUNTS, 14, BOOK_SHORTS, 14, jobs, 4, amounts, 13) == 4);
    see("jobs refuse 21", dilbreth_allocate_jobs(BOOK_ACCOUNTS, 14, BOOK_SHORTS, 14, many, 65, amounts, 15) == 21);
    see("jobs refuse 22 past the list",
        dilbreth_allocate_jobs(BOOK_ACCOUNTS, 13, BOOK_SHORTS, 13, jobs, 4, amounts, 15) == 22);
    see("jobs refuse 22 for a stretch that begins too early",
        dilbreth_allocate_jobs(BOOK_ACCOUNTS, 14, BOOK_SHORTS, 14, many, 64, amounts, 15) == 22);
    see("no jobs", dilbreth_allocate_jobs(BOOK_ACCOUNTS, 14, BOOK_SHORTS, 14, jobs, 0, amounts, 15) == 0);
    kept = answered(&many[0], &BOOK[0], 77, 78, 79) && memcmp(amounts, before, sizeof amounts) == 0;
    for (i = 0; i < 4; i++)
        kept = kept && answered(&jobs[i], &BOOK[i], 77, 78, 79);
    see("they keep records and amounts", kept);
}

/* The two branches that the header shows. */
static const uint32_t FIRST_ACCOUNTS[3] = {2, 5, 9}, FIRST_SHORTS[3] = {30, 8, 1};
static const uint32_t SECOND_ACCOUNTS[3] = {1, 5, 7}, SECOND_SHORTS[3] = {4, 12, 20};

/* What a merge writes, and the lengths of its outputs. */
static struct merged {
    uint32_t accounts[6], shorts[6], total;
    size_t positions, accounts_len, shorts_len;
} merged;

static void clear_merged(size_t accounts_len, size_t shorts_len)
{
    size_t i;

    for (i = 0; i < 6; i++) {
        merged.accounts[i] = 99;
        merged.shorts[i] = 98;
    }
    merged.total = 97;
    merged.positions = 96;
    merged.accounts_len = accounts_len;
    merged.shorts_len = shorts_len;
}

/* Merges the first elements of the branches' lists, the second's shorts as given; answers 0 or the number. */
static uint32_t merge(size_t first_len, size_t second_len, const uint32_t *second_shorts)
{
    return dilbreth_merge(FIRST_ACCOUNTS, first_len, FIRST_SHORTS, 3, SECOND_ACCOUNTS, second_len, second_shorts, 3,
                          merged.accounts, merged.accounts_len, merged.shorts, merged.shorts_len, &merged.positions,
                          &merged.total);
}

static void merged_lists(void)
{
    static const uint32_t accounts[6] = {1, 2, 5, 7, 9, 99}, shorts[6] = {4, 30, 20, 20, 1, 98};
    uint32_t amounts[5], total, further;

    clear_merged(6, 5);
    see("merged lists", merge(3, 3, SECOND_SHORTS) == 0 && merged.positions == 5 && merged.total == 75 &&
                            memcmp(merged.accounts, accounts, sizeof accounts) == 0 &&
                            memcmp(merged.shorts, shorts, sizeof shorts) == 0);
    see("a merged list is allocated",
        dilbreth_allocate(DILBRETH_WHEEL, 75, 0, DILBRETH_DEFAULT_INCREMENT, DILBRETH_SHORTS, merged.accounts, 5,
                          merged.accounts, 5, merged.shorts, 5, amounts, 5, &total, &further) == 0 &&
            total == 75 && memcmp(amounts, shorts, sizeof amounts) == 0);
}

static void refused_merges(void)
{
    static const uint32_t none[3] = {4, 0, 20}, many[3] = {4, 12, 9999946};
    struct merged before;

    clear_merged(6, 6);
    before = merged;
    see("merge refuses 1 of the first list", merge(2, 3, none) == 1);
    see("merge refuses 1 of the second list", merge(3, 4, none) == 1);
    see("merge refuses 6 of the second list", merge(3, 3, none) == 6);
    see("merge refuses 7 of the merged list", merge(3, 3, many) == 7);
    merged.accounts_len = 4;
    see("merge refuses 4 for the accounts", merge(3, 3, SECOND_SHORTS) == 4);
    merged.accounts_len = 6;
    merged.shorts_len = 4;
    see("merge refuses 4 for the shorts", merge(3, 3, SECOND_SHORTS) == 4);
    see("they keep lists and numbers", memcmp(merged.accounts, before.accounts, sizeof before.accounts) == 0 &&
                                           memcmp(merged.shorts, before.shorts, sizeof before.shorts) == 0 &&
                                           merged.positions == before.positions && merged.total == before.total);
}

static void refusals(void)
{
    static const uint32_t shorts[5] = {5, 8, 2, 10, 11};
    const size_t length = sizeof M - 1;
    uint32_t codes[5] = {9, 9, 9, 9, 9}, amounts[5] = {9, 9, 9, 9, 9}, other[5] = {9, 9, 9, 9, 9};
    uint32_t total = 77, further = 78, exercised = 79, draw = 80, form = 84, increment = 85;
    uint8_t method = 81, bytes[100], before[100];
    size_t positions = 82, written = 83;
    int kept;

    memset(bytes, 0xEE, sizeof bytes);
    memset(before, 0xEE, sizeof before);
    see("allocate refuses 14",
        dilbreth_allocate('X', 0, 0, DILBRETH_DEFAULT_INCREMENT, DILBRETH_SHORTS, ACCOUNTS, 5, ACCOUNTS, 5, shorts, 4,
                          amounts, 0, &total, &further) == 14);
    see("allocate refuses 1",
        dilbreth_allocate('W', 0, 0, DILBRETH_DEFAULT_INCREMENT, DILBRETH_SHORTS, ACCOUNTS, 5, ACCOUNTS, 5, shorts, 4,
                          amounts, 5, &total, &further) == 1);
    see("allocate refuses 4",
        dilbreth_allocate('W', 0, 0, DILBRETH_DEFAULT_INCREMENT, DILBRETH_SHORTS, ACCOUNTS, 5, ACCOUNTS, 5, shorts, 5,
                          amounts, 4, &total, &further) == 4);
    see("allocate refuses 9",
        dilbreth_allocate('P', 37, 0, DILBRETH_DEFAULT_INCREMENT, DILBRETH_SHORTS, ACCOUNTS, 5, ACCOUNTS, 5, shorts, 5,
                          amounts, 5, &total, &further) == 9);
    see("allocate refuses 10",
        dilbreth_allocate('W', 35, 37, DILBRETH_DEFAULT_INCREMENT, DILBRETH_SHORTS, ACCOUNTS, 5, ACCOUNTS, 5, shorts, 5,
                          amounts, 5, &total, &further) == 10);
    see("allocate refuses 10 for one position of W",
        dilbreth_allocate('W', 4, 0, DILBRETH_DEFAULT_INCREMENT, DILBRETH_SHORTS, ACCOUNTS, 1, ACCOUNTS, 1, shorts, 1,
                          amounts, 5, &total, &further) == 10);
    see("read refuses 13", dilbreth_read((const uint8_t *)M, length - 1, &method, &exercised, &draw, &increment, &form,
                                         codes, 5, amounts, 5, other, 5, &positions) == 13);
    see("read refuses 4", dilbreth_read((const uint8_t *)M, length, &method, &exercised, &draw, &increment, &form,
                                        codes, 5, amounts, 5, other, 4, &positions) == 4);
    see("read refuses 4 for codes", dilbreth_read((const uint8_t *)M, length, &method, &exercised, &draw, &increment,
                                                  &form, codes, 4, amounts, 5, other, 5, &positions) == 4);
    see("write refuses 14",
        dilbreth_write('l', 13, 4855, DILBRETH_DEFAULT_INCREMENT, DILBRETH_SHORTS, ACCOUNTS, 5, ACCOUNTS, 5, shorts, 4,
                       bytes, 0, &written) == 14);
    see("write refuses 4", dilbreth_write('L', 13, 4855, DILBRETH_DEFAULT_INCREMENT, DILBRETH_SHORTS, ACCOUNTS, 5,
                                          ACCOUNTS, 5, shorts, 5, bytes, length - 1, &written) == 4);
    see("write refuses 4 for last numbers", dilbreth_write('L', 13, 4855, DILBRETH_DEFAULT_INCREMENT,
                                                           DILBRETH_LAST_NUMBERS, ACCOUNTS, 5, ACCOUNTS, 5, shorts, 5,
                                                           bytes, length - 2, &written) == 4);
    see("respond refuses 4",
        dilbreth_respond((const uint8_t *)M, length, bytes, sizeof M_ASSIGNED - 2, &written) == 4);
    kept = amounts[0] == 9 && memcmp(amounts, other, sizeof amounts) == 0 &&
           memcmp(amounts, codes, sizeof amounts) == 0 && total == 77 && further == 78 && exercised == 79 &&
           draw == 80 && method == 81 && positions == 82 && written == 83 && form == 84 && increment == 85 &&
           memcmp(bytes, before, sizeof bytes) == 0;
    see("refusals keep every output", kept);
    see("respond writes a refusal of the text", dilbreth_respond(bytes, 0, bytes + 1, 11, &written) == 0 &&
                                                    written == 11 && memcmp(bytes + 1, "refused\n12\n", 11) == 0);
}

struct investor {
    const char *name;
    uint32_t day, given[7], number, after[3];
};

/* After a refusal the numbers are kept: 77, 78, 79. */
static const struct investor INVESTORS[] = {
    {"X", DILBRETH_ORDINARY_DAY, {15, 0, 20, 0, 0, 10, 0}, 0, {35, 25, 0}},
    {"X, 35 exercised", DILBRETH_ORDINARY_DAY, {15, 0, 20, 0, 0, 10, 35}, 0, {35, 0, 10}},
    {"X, final day", DILBRETH_FINAL_DAY, {15, 0, 20, 0, 0, 10, 25}, 0, {25, 0, 0}},
    {"X, day 256", 256, {15, 0, 20, 0, 0, 10, 0}, 0, {25, 25, 0}},
    {"Y", DILBRETH_ORDINARY_DAY, {0, 20, 20, 0, 0, 0, 0}, 0, {20, 20, 20}},
    {"Y, 20 exercised", DILBRETH_ORDINARY_DAY, {0, 20, 20, 0, 0, 0, 20}, 0, {20, 0, 20}},
    {"Y, final day", DILBRETH_FINAL_DAY, {0, 20, 20, 0, 0, 0, 0}, 0, {0, 0, 0}},
    {"seven counts", DILBRETH_ORDINARY_DAY, {1000, 200, 30, 4, 5, 60, 700}, 0, {1030, 270, 199}},
    {"seven counts, final day", DILBRETH_FINAL_DAY, {1000, 200, 30, 4, 5, 60, 700}, 0, {771, 71, 0}},
    {"all of the short closed", DILBRETH_ORDINARY_DAY, {1000, 200, 30, 4, 204, 400, 700}, 0, {1030, 0, 70}},
    {"left short, final day", DILBRETH_FINAL_DAY, {0, 200, 30, 4, 5, 60, 0}, 0, {0, 0, 229}},
    {"16 first", DILBRETH_ORDINARY_DAY, {0, 0, 0, 0, 1, 0, 10000001}, 16, {77, 78, 79}},
    {"17 before 18", DILBRETH_ORDINARY_DAY, {0, 2, 0, 3, 6, 9, 1}, 17, {77, 78, 79}},
    {"17, final day", DILBRETH_FINAL_DAY, {0, 2, 0, 3, 6, 9, 1}, 17, {77, 78, 79}},
    {"18", DILBRETH_ORDINARY_DAY, {15, 0, 20, 0, 0, 10, 36}, 18, {77, 78, 79}},
    {"18, final day", DILBRETH_FINAL_DAY, {15, 0, 20, 0, 0, 10, 26}, 18, {77, 78, 79}},
    {"18, day 2", 2, {15, 0, 20, 0, 0, 10, 26}, 18, {77, 78, 79}},
};

static void investor(const struct investor *i)
{
    uint32_t limit = 77, long_after = 78, short_after = 79, number;
    char what[48];

    number = dilbreth_process_investor(i->day, i->given[0], i->given[1], i->given[2], i->given[3], i->given[4],
                                       i->given[5], i->given[6], &limit, &long_after, &short_after);
    snprintf(what, sizeof what, "investor, %s", i->name);
    see(what, number == i->number && limit == i->after[0] && long_after == i->after[1] && short_after == i->after[2]);
}

static void market_makers(void)
{
    uint32_t limit = 77;

    see("market-maker refuses 16",
        dilbreth_process_market_maker(DILBRETH_FINAL_DAY, 0, 0, 0, 10000001, &limit) == 16 && limit == 77);
    see("market-maker Z",
        dilbreth_process_market_maker(DILBRETH_ORDINARY_DAY, 0, 100, 100, 100, &limit) == 0 && limit == 100);
    see("market-maker Z, final day",
        dilbreth_process_market_maker(DILBRETH_FINAL_DAY, 0, 100, 100, 100, &limit) == 0 && limit == 0);
    see("market-maker, four counts",
        dilbreth_process_market_maker(DILBRETH_ORDINARY_DAY, 1000, 20, 300, 4, &limit) == 0 && limit == 1300);
    see("market-maker, four counts, day 4294967295",
        dilbreth_process_market_maker(UINT32_MAX, 1000, 20, 300, 4, &limit) == 0 && limit == 1276);
}

static void words(void)
{
    static const char NINE[] = "more is exercised than the positions hold\n", NONE[] = "no refusal has this number\n";
    static const char FOURTEEN[] = "the method is not W, P, L or R\n";
    static const char TWENTY[] = "a last number is 0 or not above the one before\n";
    static const char TWENTY_ONE[] = "there are more than 64 jobs\n";
    static const char TWENTY_TWO[] = "a stretch ends past the list or begins too early\n";
    static const char TWENTY_THREE[] = "the increment is 0 or above 1,000 (W)\n";
    static const char TWENTY_FOUR[] = "the increment makes more than 1,000,000 blocks\n";
    const size_t length = sizeof NINE - 1;
    uint8_t line[DILBRETH_LONGEST_EXPLANATION + 1], before[sizeof line];

    memset(line, 0xEE, sizeof line);
    memset(before, 0xEE, sizeof before);
    see("explain a short line", dilbreth_explain(9, line, length - 1) == length && memcmp(line, before, sizeof line) == 0);
    see("explain 9", dilbreth_explain(9, line, length) == length && memcmp(line, NINE, length) == 0 &&
                         line[length] == 0xEE);
    see("explain a number of no refusal",
        dilbreth_explain(0, line, sizeof line) == sizeof NONE - 1 && memcmp(line, NONE, sizeof NONE - 1) == 0 &&
            line[sizeof NONE - 1] == (uint8_t)NINE[sizeof NONE - 1]);
    see("the words for 14", dilbreth_explain(14, line, sizeof line) == sizeof FOURTEEN - 1 &&
                                memcmp(line, FOURTEEN, sizeof FOURTEEN - 1) == 0);
    see("the words for 20", dilbreth_explain(20, line, sizeof line) == sizeof TWENTY - 1 &&
                                memcmp(line, TWENTY, sizeof TWENTY - 1) == 0);
    see("the words for 21", dilbreth_explain(21, line, sizeof line) == sizeof TWENTY_ONE - 1 &&
                                memcmp(line, TWENTY_ONE, sizeof TWENTY_ONE - 1) == 0);
    see("the words for 22", dilbreth_explain(22, line, sizeof line) == sizeof TWENTY_TWO - 1 &&
                                memcmp(line, TWENTY_TWO, sizeof TWENTY_TWO - 1) == 0);
    see("the words for 23", dilbreth_explain(23, line, sizeof line) == sizeof TWENTY_THREE - 1 &&
                                memcmp(line, TWENTY_THREE, sizeof TWENTY_THREE - 1) == 0);
    see("the words for 24", dilbreth_explain(24, line, sizeof line) == sizeof TWENTY_FOUR - 1 &&
                                memcmp(line, TWENTY_FOUR, sizeof TWENTY_FOUR - 1) == 0);
    see("no words for 25", dilbreth_explain(25, line, sizeof line) == sizeof NONE - 1 &&
                               memcmp(line, NONE, sizeof NONE - 1) == 0);
    see("the longest line", dilbreth_explain(10, line, sizeof line) == DILBRETH_LONGEST_EXPLANATION);
}

int main(void)
{
    size_t i;

    see("the version", dilbreth_version() == DILBRETH_VERSION);
    for (i = 0; i < sizeof KNOWN / sizeof KNOWN[0]; i++)
        known(&KNOWN[i]);
    case_m();
    leading_zeros();
    by_codes();
    exhibit();
    last_numbers();
    increments();
    layout_of_a_job();
    book();
    refused_books();
    merged_lists();
    refused_merges();
    refusals();
    for (i = 0; i < sizeof INVESTORS / sizeof INVESTORS[0]; i++)
        investor(&INVESTORS[i]);
    market_makers();
    words();
    printf("C: %d wrong\n", wrong);
    return wrong != 0;
}
