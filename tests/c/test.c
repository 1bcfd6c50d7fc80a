/* The C library on every request of the program's cases, and on calls on tables of any bytes: test REQUESTS ANSWERS CALLS LEFT. Each answer is held to the
 * one of the second program, and each lent buffer to what the header says of it. */
#include "lists.h"
#include "parts.h"
#include "rooms.h"
#include "states.h"
#include "steps.h"
#include "tables.h"
#include "visits.h"

#include <stdio.h>
#include <string.h>

typedef floodrafter_answer writer(const uint8_t *text, size_t text_len, uint8_t *out, size_t out_len);
typedef floodrafter_answer checker(const uint8_t *text, size_t text_len);
typedef size_t explainer(const uint8_t *text, size_t text_len, uint8_t *out, size_t out_len);

/* "A fault .. writes nowhere". */
static void expect_fault(const struct asked *r, floodrafter_answer a, const uint8_t *out)
{
    expect_told(r, a.fault, a.line);
    expect(a.len == 0, r, "a length beside a fault");
    expect(is_old(out, ROOM), r, "a fault wrote");
}

static void expect_short(const struct asked *r, writer *write, size_t room)
{
    uint8_t out[ROOM];
    memset(out, OLD, sizeof out);
    floodrafter_answer a = write(r->request.text.at, r->request.text.len, out, room);
    expect(a.fault == FLOODRAFTER_SHORT_BUFFER && a.line == 0 && a.len == 0, r, "a short buffer is fault 7, line 0");
    expect(is_old(out, sizeof out), r, "a short buffer was written");
}

static void expect_text(const struct asked *r, writer *write, floodrafter_answer a, const uint8_t *out)
{
    uint8_t exact[ROOM];
    expect(a.line == 0, r, "a line without a fault");
    expect(same(r->answer, out, a.len), r, "another text");
    expect(is_old(out + a.len, ROOM - a.len), r, "bytes beyond the text");
    memset(exact, OLD, sizeof exact);
    write(r->request.text.at, r->request.text.len, exact, a.len);
    expect(memcmp(out, exact, sizeof exact) == 0, r, "a buffer of the text's own length");
    expect_short(r, write, a.len - 1);
    expect_short(r, write, 0);
}

/* A sentence exactly beside a fault, of the same length in any buffer; of a short one only the room is written. */
static void expect_sentence(const struct asked *r, explainer *explain, bool fault)
{
    uint8_t out[ROOM], part[ROOM];
    memset(out, OLD, sizeof out);
    size_t len = explain(r->request.text.at, r->request.text.len, out, sizeof out);
    expect(fault == (len > 0), r, "a sentence without a fault, or none beside one");
    expect(len <= FLOODRAFTER_SENTENCE_MAX, r, "a sentence that is too long");
    expect(is_plain(out, len), r, "a sentence that is not plain text");
    expect(is_old(out + len, ROOM - len), r, "bytes beyond the sentence");
    memset(part, OLD, sizeof part);
    expect(explain(r->request.text.at, r->request.text.len, part, len / 2) == len, r, "another length in a short buffer");
    expect(memcmp(part, out, len / 2) == 0, r, "another sentence in a short buffer");
    expect(is_old(part + len / 2, ROOM - len / 2), r, "bytes beyond a short buffer");
}

static void ask(const struct asked *r, writer *write, checker *check, explainer *explain)
{
    uint8_t out[ROOM];
    memset(out, OLD, sizeof out);
    floodrafter_answer a = write(r->request.text.at, r->request.text.len, out, sizeof out);
    if (a.fault != FLOODRAFTER_DONE)
        expect_fault(r, a, out);
    else
        expect_text(r, write, a, out);
    floodrafter_answer c = check(r->request.text.at, r->request.text.len);
    expect(c.fault == a.fault && c.line == a.line && c.len == 0, r, "the check differs");
    expect_sentence(r, explain, a.fault != FLOODRAFTER_DONE);
}

static void ask_by_word(const struct asked *r)
{
    const char *word = r->request.word;
    if (strcmp(word, "solve") == 0) {
        ask(r, floodrafter_solve, floodrafter_check_job, floodrafter_explain_job);
        ask_start(r);
        ask_walk(r);
        ask_in_parts(r);
        ask_opened(r);
        ask_visit(r);
    } else if (strcmp(word, "job") == 0) {
        ask(r, floodrafter_rewrite_job, floodrafter_check_job, floodrafter_explain_job);
        ask_start(r);
        ask_in_parts(r);
        ask_opened(r);
    } else if (strcmp(word, "parts") == 0) {
        ask(r, floodrafter_rewrite_job, floodrafter_check_job, floodrafter_explain_job);
        ask_parts(r);
    } else if (strcmp(word, "result") == 0) {
        ask(r, floodrafter_rewrite_result, floodrafter_check_result, floodrafter_explain_result);
    } else if (strcmp(word, "image") == 0) {
        ask_start(r);
        ask_image(r);
    } else if (strcmp(word, "decide") == 0) {
        ask_decide(r);
    } else if (strcmp(word, "halve") == 0) {
        ask_start(r);
        ask_halve(r);
    } else if (is_room_call(&r->request)) {
        ask_room(r);
    } else {
        expect(false, r, "no such request");
    }
}

/* The fault of a job text that ends behind its line of n. */
static uint64_t fault_of_n(int n)
{
    char text[32];
    int len = snprintf(text, sizeof text, "job=1\nkind=poly\nn=%d\n", n);
    return floodrafter_check_job((const uint8_t *)text, (size_t)len).fault;
}

/* The header's limits and faults are the library's: a text over FLOODRAFTER_TEXT_MAX bytes is fault 1, n over
 * FLOODRAFTER_N fault 3, "a written pin of n" fault 9. */
static void expect_limits(void)
{
    static const uint8_t text[FLOODRAFTER_TEXT_MAX + 1];
    static const char last[] = "job=1\nkind=eigen\nn=1\npin=1\n";
    const struct asked limit = {.request = {.word = "limit"}};
    expect(floodrafter_check_job(text, FLOODRAFTER_TEXT_MAX).fault != FLOODRAFTER_LONG_TEXT, &limit, "the longest text is too long");
    expect(floodrafter_check_job(text, FLOODRAFTER_TEXT_MAX + 1).fault == FLOODRAFTER_LONG_TEXT, &limit, "a longer text is taken");
    expect(fault_of_n(FLOODRAFTER_N) == FLOODRAFTER_SPELLING, &limit, "the greatest n is too great in a text");
    expect(fault_of_n(FLOODRAFTER_N + 1) == FLOODRAFTER_UNKNOWNS, &limit, "a greater n is taken in a text");
    floodrafter_answer pinned = floodrafter_check_job((const uint8_t *)last, strlen(last));
    expect(pinned.fault == FLOODRAFTER_PIN && pinned.line == 4, &limit, "a pin line for the last coordinate is taken");
    expect_step_limits(&limit);
    expect_list_limits(&limit);
    expect_states(&limit);
    expect_room_limits(&limit);
}

int main(int argc, char **argv)
{
    if (argc != 5) {
        fprintf(stderr, "usage: test REQUESTS ANSWERS CALLS LEFT\n");
        return 2;
    }
    struct bytes requests = whole_file(argv[1]), answers = whole_file(argv[2]);
    struct asked r = {.before = 0};
    expect_limits();
    while (next_request(&requests, &r.request)) {
        r.answer = next_answer(&answers);
        ask_by_word(&r);
        r.before++;
    }
    unsigned long calls = ask_tables(whole_file(argv[3]), whole_file(argv[4]));
    printf("C library: %lu requests, %lu calls on tables, %lu failures\n", r.before, calls, failures());
    return failures() != 0 || r.before == 0 || answers.len != 0 || calls == 0;
}
