/*
 * Preloaded into a program: standard input, output and error that go wrong as planned.
 * STREAM_0 is the plan of reads, STREAM_1 and STREAM_2 those of writes: numbers parted by commas, one for
 * each call. A number above 0 moves at most so many bytes, one below 0 fails with that error, and
 * NUMBER*TIMES stands for as many calls. After its plan a stream works as ever.
 */
#define _GNU_SOURCE
#include <errno.h>
#include <stdlib.h>
#include <sys/syscall.h>
#include <unistd.h>

struct plan {
    const char *rest;
    long number, times;
    int known;
};

static struct plan plans[3];

/* The next number of a stream's plan, 0 where there is none. */
static long next(int stream)
{
    static const char *const NAMES[3] = {"STREAM_0", "STREAM_1", "STREAM_2"};
    struct plan *plan;
    char *end;

    if (stream < 0 || stream > 2)
        return 0;
    plan = &plans[stream];
    if (!plan->known) {
        plan->rest = getenv(NAMES[stream]);
        plan->known = 1;
    }
    if (plan->times == 0) {
        if (plan->rest == NULL || *plan->rest == '\0')
            return 0;
        plan->number = strtol(plan->rest, &end, 10);
        plan->times = *end == '*' ? strtol(end + 1, &end, 10) : 1;
        plan->rest = *end == ',' ? end + 1 : end;
    }
    plan->times--;
    return plan->number;
}

static ssize_t moved(long call, int stream, void *buffer, size_t count)
{
    long number = next(stream);

    if (number < 0) {
        errno = (int)-number;
        return -1;
    }
    if (number > 0 && (size_t)number < count)
        count = (size_t)number;
    return syscall(call, stream, buffer, count);
}

ssize_t read(int stream, void *buffer, size_t count)
{
    return moved(SYS_read, stream, buffer, count);
}

ssize_t write(int stream, const void *buffer, size_t count)
{
    return moved(SYS_write, stream, (void *)buffer, count);
}
