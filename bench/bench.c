/* Times the library beside the peer, after both have given the same answers: bench REQUESTS, a file of requests.
 * For bench/count it also tells the name of a sort of job, bench name SORT, and does some work of one of the two: bench SOLVER WORK SORT TIMES, or of the table of
 * rooms bench SOLVER room-CALL TAKEN TIMES. */
#include <stdio.h>
#include <stdlib.h>
#include <string.h>

#include "in_parts.h"
#include "jobs.h"
#include "peer.h"
#include "room_times.h"
#include "same.h"
#include "timing.h"

static const char targets[] = "Targets: with n=4 step 1.0 (16 terms), text to text 1.5, reading 1.5; "
                              "with n=1 step 3.0, text to text 3.0, reading 2.5.";

/* The steps that a job's answer reports. */
static long steps_of(const struct text *text)
{
    uint8_t out[FLOODRAFTER_TEXT_MAX + 1];
    floodrafter_answer answer = peer_solve(text->bytes, text->len, out, FLOODRAFTER_TEXT_MAX);
    out[answer.len] = '\0';
    const char *steps = strstr((const char *)out, "steps=");
    return steps == NULL ? 0 : strtol(steps + strlen("steps="), NULL, 10);
}

/* One step: a long run less the same job with no steps. */
static struct times measure_step(const struct text *run, const struct text *idle)
{
    struct times whole = measure(SOLVE, run), rest = measure(SOLVE, idle);
    double steps = (double)steps_of(run);
    for (int solver = 0; solver < SOLVERS; solver++)
        whole.of[solver] = (whole.of[solver] - rest.of[solver]) / steps;
    return whole;
}

static void must_be_same(const struct text *text)
{
    if (!same_answers(text->bytes, text->len))
        exit(1);
}

static void must_be_same_halved(const struct text *text)
{
    size_t list_len = FLOODRAFTER_BOXES_MAX * FLOODRAFTER_LISTED;
    if (!same_halved(text->bytes, text->len, FLOODRAFTER_DEPTH_MAX, list_len))
        exit(1);
}

/* The greatest ratios of the jobs with as many unknowns. */
struct worst {
    double step, solve, reading;
};

static void keep_worst(double *worst, double ratio)
{
    if (*worst < ratio)
        *worst = ratio;
}

static void print_reading(const struct text *text, struct worst *worst)
{
    struct times reading = measure(CHECK, text);
    double megabytes = 1e-6 * (double)text->len;
    printf(" | %5zu %8.1f %8.1f %6.2f\n", text->len, megabytes / reading.of[LIBRARY], megabytes / reading.of[PEER], ratio(reading));
    fflush(stdout);
    keep_worst(&worst->reading, ratio(reading));
}

static void print_name(const struct sort *sort)
{
    char more[24] = "";
    if (sort->terms > 0)
        snprintf(more, sizeof more, "%d terms", sort->terms);
    else if (sort->pin > 0)
        snprintf(more, sizeof more, "pin=%d", sort->pin);
    printf("%-6s n=%d %8s", sort->kind, sort->n, more);
}

static void print_sort(const struct sort *sort, struct worst *worst)
{
    struct text run, idle, soon;
    write_job(sort, LATE, 1000, &run);
    write_job(sort, LATE, 0, &idle);
    write_job(sort, SOON, 8, &soon);
    struct times step = measure_step(&run, &idle), solve = measure(SOLVE, &soon);
    print_name(sort);
    printf(" | %5ld %9.0f %9.0f %6.2f", steps_of(&run), 1e9 * step.of[LIBRARY], 1e9 * step.of[PEER], ratio(step));
    printf(" | %5ld %9.0f %9.0f %6.2f", steps_of(&soon), 1 / solve.of[LIBRARY], 1 / solve.of[PEER], ratio(solve));
    print_reading(&soon, worst);
    keep_worst(&worst->step, ratio(step));
    keep_worst(&worst->solve, ratio(solve));
}

static void print_longest(const char *name, int extra, struct worst *worst)
{
    struct text text;
    write_longest_job(extra, &text);
    printf("%-19s | %32s | %32s", name, "", "");
    print_reading(&text, worst);
}

static void print_worst(const struct worst *worst)
{
    printf("\nThe greatest ratios:\n");
    for (int n = 1; n <= FLOODRAFTER_N; n++) {
        if (worst[n].step > 0)
            printf("n=%d: step %.2f, text to text %.2f, reading %.2f\n", n, worst[n].step, worst[n].solve, worst[n].reading);
    }
}

/* The sorts whose texts are read in parts too: 1 unknown, and 4 and 6 with 16 terms. bench/count has the same. */
static const size_t sorts_in_parts[] = {0, 3, 11};

static void print_in_parts(const struct sort *sort)
{
    struct text text;
    write_job(sort, SOON, 8, &text);
    struct times whole = measure(CHECK, &text), parts = measure(CHECK_PARTS, &text);
    print_name(sort);
    printf(" | %5zu", text.len);
    for (int solver = 0; solver < SOLVERS; solver++) {
        double at_once = whole.of[solver], in_parts = parts.of[solver];
        printf(" | %8.0f %8.0f %6.2f", 1e9 * at_once, 1e9 * in_parts, in_parts / at_once);
    }
    printf(" | %7.2f %8.2f\n", ratio(whole), ratio(parts));
    fflush(stdout);
}

static void print_all_in_parts(void)
{
    printf("\nReading a text at once and in parts of %d bytes, in nanoseconds; a ratio is in parts over at once.\n", PART);
    printf("%-19s | %5s | %-24s | %-24s | %s\n", "", "", "library", "peer", "library over peer");
    printf("%-19s | %5s | %8s %8s %6s | %8s %8s %6s | %7s %8s\n", "job", "bytes", "at once", "in parts", "ratio",
           "at once", "in parts", "ratio", "at once", "in parts");
    for (size_t s = 0; s < sizeof sorts_in_parts / sizeof sorts_in_parts[0]; s++)
        print_in_parts(&sorts[sorts_in_parts[s]]);
}

/* The sorts whose boxes are halved too, and the steps of each run. bench/count has the same sorts. */
static const size_t sorts_halved[] = {0, 1, 3, 6, 11};
enum { HALVED = sizeof sorts_halved / sizeof sorts_halved[0], HALVED_STEPS = 2 };

static void print_halved(const struct sort *sort)
{
    struct text text;
    write_job(sort, DEEP, HALVED_STEPS, &text);
    struct times halved = measure(HALVE, &text);
    size_t boxes = boxes_of(PEER, &text, FLOODRAFTER_DEPTH_MAX);
    double library = (double)boxes / halved.of[LIBRARY], peer = (double)boxes / halved.of[PEER];
    print_name(sort);
    printf(" | %5zu %9.0f %9.0f %6.2f\n", boxes, library, peer, ratio(halved));
    fflush(stdout);
}

static void print_all_halved(void)
{
    printf("\nHalving, text to list.\n%-19s | boxes a second at depth %d\n", "", FLOODRAFTER_DEPTH_MAX);
    printf("%-19s | %5s %9s %9s %6s\n", "job", "boxes", "library", "peer", "ratio");
    for (size_t s = 0; s < HALVED; s++)
        print_halved(&sorts[sorts_halved[s]]);
}

/* Terms that make the longest job's text 4,087 bytes long. */
enum { MORE_TERMS = 129 };

static void check_all(const char *requests)
{
    size_t count;
    if (!same_answers_in_file(requests, &count) || !same_room_times())
        exit(1);
    struct text text;
    for (size_t s = 0; s < sort_count; s++) {
        write_job(&sorts[s], LATE, 1000, &text);
        must_be_same(&text);
        write_job(&sorts[s], LATE, 0, &text);
        must_be_same(&text);
        write_job(&sorts[s], SOON, 8, &text);
        must_be_same(&text);
    }
    for (size_t s = 0; s < HALVED; s++) {
        write_job(&sorts[sorts_halved[s]], DEEP, HALVED_STEPS, &text);
        must_be_same(&text);
        must_be_same_halved(&text);
    }
    write_longest_job(0, &text);
    must_be_same(&text);
    write_longest_job(MORE_TERMS, &text);
    must_be_same(&text);
    size_t jobs = 3 * sort_count + HALVED + 2;
    printf("The library and the peer answer alike: %zu requests of the file, %zu jobs of the bench.\n\n", count, jobs);
}

static int tell_name(size_t sort)
{
    if (sort >= sort_count)
        return 1;
    print_name(&sorts[sort]);
    return 0;
}

/* The depth at which so many boxes are listed, where no run drops one. */
static int64_t depth_for(int boxes)
{
    return boxes <= 1 ? 0 : 1 + depth_for(boxes / 2);
}

/* The work of `times` steps on a job that takes many, of as many boxes of one that is halved, of as many calls on one that
 * is soon decided, or of as many on each of eight rooms, where `sort` says how many are taken. */
static int do_work(const char *solver_name, const char *work, size_t sort, int times)
{
    struct text text;
    int solver = strcmp(solver_name, "peer") == 0 ? PEER : LIBRARY;
    if (strncmp(work, "room-", strlen("room-")) == 0)
        return !do_room_work(solver, work + strlen("room-"), sort, times);
    if (sort >= sort_count)
        return 1;
    if (strcmp(work, "steps") == 0) {
        write_job(&sorts[sort], LATE, times, &text);
        seconds_of(solver, SOLVE, &text, 1);
    } else if (strcmp(work, "halve") == 0) {
        write_job(&sorts[sort], DEEP, HALVED_STEPS, &text);
        boxes_of(solver, &text, depth_for(times));
    } else {
        enum entry entry = strcmp(work, "solve") == 0 ? SOLVE : strcmp(work, "parts") == 0 ? CHECK_PARTS : CHECK;
        write_job(&sorts[sort], SOON, 8, &text);
        seconds_of(solver, entry, &text, times);
    }
    return 0;
}

int main(int count, char **words)
{
    if (count == 3)
        return tell_name(strtoul(words[2], NULL, 10));
    if (count == 5)
        return do_work(words[1], words[2], strtoul(words[3], NULL, 10), atoi(words[4]));
    if (count != 2) {
        fputs("usage: bench REQUESTS\n", stderr);
        return 1;
    }
    check_all(words[1]);
    struct worst worst[FLOODRAFTER_N + 1] = {{0, 0, 0}};
    printf("A ratio is the time of the library over the time of the peer.\n%s\n\n", targets);
    printf("%-19s | %-32s | %-32s | %-30s\n", "", "nanoseconds a step", "jobs a second, text to text", "reading, megabytes a second");
    printf("%-19s | %5s %9s %9s %6s | %5s %9s %9s %6s | %5s %8s %8s %6s\n", "job", "steps", "library", "peer", "ratio", "steps", "library", "peer",
           "ratio", "bytes", "library", "peer", "ratio");
    for (size_t s = 0; s < sort_count; s++)
        print_sort(&sorts[s], &worst[sorts[s].n]);
    print_longest("longest job", 0, &worst[FLOODRAFTER_N]);
    print_longest("long text, fault 6", MORE_TERMS, &worst[FLOODRAFTER_N]);
    print_worst(worst);
    print_all_in_parts();
    print_all_halved();
    print_room_times();
    return 0;
}
