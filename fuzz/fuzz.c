/* A fuzz target over the exported functions. The first byte of an input says which is called, the next two the arena's records and the plan buffer's placements;
 * the rest is a text, or a job and a list as numbers: a byte each, and 255 for the next eight bytes. Where the first byte is 128 or above the numbers are brought
 * into range, so that most jobs are planned and most lists have real pieces, and a text is spelled from them, sometimes with a byte of it damaged.
 * Every lent slice ends where a page begins that must not be touched, and is as long as it says; what is found in it afterwards must be what the header says. */
#include <stdio.h>
#include <stdlib.h>
#include <string.h>
#include <sys/mman.h>
#include "varandeco.h"

enum { PAGE = 4096, ROOM = 16 * PAGE, RUBBISH = 0xa5 };

#define MUST(fact) do { if (!(fact)) { fprintf(stderr, "not so: %s (line %d)\n", #fact, __LINE__); abort(); } } while (0)

/* A lent slice of so many bytes; what stands in front of it must stay too. */
struct lent {
    uint8_t *room, *start;
    size_t bytes;
};

static void lend(struct lent *s, size_t bytes)
{
    if (!s->room) {
        s->room = mmap(0, ROOM + PAGE, PROT_READ | PROT_WRITE, MAP_PRIVATE | MAP_ANONYMOUS, -1, 0);
        MUST(s->room != MAP_FAILED && mprotect(s->room + ROOM, PAGE, PROT_NONE) == 0);
    }
    MUST(bytes + 64 <= ROOM);
    s->bytes = bytes;
    s->start = s->room + ROOM - bytes;
    memset(s->start - 64, RUBBISH, 64 + bytes);
}

static int all(const uint8_t *p, size_t n, uint8_t value)
{
    for (size_t i = 0; i < n; i++)
        if (p[i] != value)
            return 0;
    return 1;
}

/* The library is not instrumented, so an answer that was not seen before is what tells the fuzzer that an input is worth keeping: its number, place, pieces and N. */
__attribute__((section("__libfuzzer_extra_counters"))) static uint8_t seen[4][3][11][64];

/* How often each function gave each number; told at the end. */
static unsigned long given[4][11];

__attribute__((destructor)) static void tell(void)
{
    static const char *const names[] = {"plan_text", "check_text", "plan_numbers", "check_numbers"};
    for (int f = 0; f < 4; f++) {
        fprintf(stderr, "%-13s", names[f]);
        for (int i = 0; i <= 10; i++)
            fprintf(stderr, "  %d: %lu", i, given[f][i]);
        fprintf(stderr, "\n");
    }
}

static size_t within(uint64_t n) { return n < 63 ? n : 63; }

/* N up to 31 as it is, above that four steps from one power of 2 to the next. */
static size_t step(uint64_t n)
{
    size_t steps = 0;
    for (; n >= 32; n /= 2)
        steps += 4;
    return within(steps ? 28 + steps + (n - 16) / 4 : n);
}

static void note(int function, uint64_t number, const uint64_t *a, size_t room)
{
    given[function][number]++;
    seen[function][0][number][room > 1 ? within(a[1]) : 0] = 1;
    if (number == 0 && room >= VARANDECO_CHECK_ANSWER)
        seen[function][1][number][within(a[room >= VARANDECO_PLAN_ANSWER ? VARANDECO_PLAN_PIECES : VARANDECO_CHECK_PIECES])] = 1;
    if (number == 0 && room >= VARANDECO_PLAN_ANSWER)
        seen[function][2][number][step(a[VARANDECO_PLAN_OUTLINES])] = 1;
}

static struct lent arena, plan, answer, text, job, list;

static uint64_t *numbers(struct lent *s) { return (uint64_t *)s->start; }

/* Numbers from bytes: a byte each, and 255 for the next eight. */
static size_t spell(const uint8_t **at, const uint8_t *end, uint64_t *out, size_t most)
{
    size_t n = 0;
    while (*at < end && n < most) {
        uint64_t v = *(*at)++;
        if (v == 255 && end - *at >= 8) {
            memcpy(&v, *at, 8);
            *at += 8;
        }
        out[n++] = v;
    }
    return n;
}

static void lend_numbers(struct lent *s, const uint64_t *from, size_t n)
{
    lend(s, 8 * n);
    memcpy(s->start, from, 8 * n);
}

/* A small job, and a list for it, from any numbers. */
static void tame(uint64_t *job, size_t n, uint64_t *list, size_t count)
{
    for (size_t i = 0; i < n; i++)
        job[i] = i < 2 ? 1 + job[i] % 30 : i == 2 ? job[i] % 3 : i == 3 ? 1 + job[i] % 4 : i % 4 == 2 ? 1 + job[i] % 100 : i % 4 == 3 ? 1 + job[i] % 5 : 1 + job[i] % 15;
    for (size_t i = 0; i < count; i++)
        list[i] = i % 3 == 0 ? list[i] % 16 == 15 ? list[i] % 6 : 1 + list[i] % (n > 3 ? job[3] : 1) : list[i] % 30;
}

/* The text of a job, and of a list if it is asked for. */
static size_t write_text(char *out, const uint64_t *job, size_t n, const uint64_t *list, size_t count, int with_list)
{
    size_t types = n < 4 ? 0 : (n - 4) / 4, at = sprintf(out, "1\n%d %d %d\n%d\n", n > 0 ? (int)job[0] : 1, n > 1 ? (int)job[1] : 1, n > 2 ? (int)job[2] : 0, (int)types);
    for (size_t t = 0; t < types; t++)
        at += sprintf(out + at, "%d %d %d %d\n", (int)job[4 + 4 * t], (int)job[5 + 4 * t], (int)job[6 + 4 * t], (int)job[7 + 4 * t]);
    if (with_list) {
        at += sprintf(out + at, "%d\n", (int)(count / 3));
        for (size_t i = 0; i + 2 < count; i += 3)
            at += sprintf(out + at, "%d %d %d\n", (int)list[i], (int)list[i + 1], (int)list[i + 2]);
    }
    return at;
}

static void see_answer(uint64_t number, size_t told)
{
    const uint64_t *a = numbers(&answer);
    size_t room = answer.bytes / 8;
    MUST(room < 1 || a[0] == number);
    for (size_t i = 2; i < told && i < room; i++)
        MUST(number == 0 || a[i] == 0);
    if (room > told)
        MUST(all((const uint8_t *)(a + told), 8 * (room - told), RUBBISH));
    MUST(all(answer.start - 64, 64, RUBBISH));
}

static void see_check(uint64_t number)
{
    MUST(number <= 2 || (6 <= number && number <= 10));
    see_answer(number, VARANDECO_CHECK_ANSWER);
}

static void see_plan(uint64_t number)
{
    MUST(number <= 5);
    see_answer(number, VARANDECO_PLAN_ANSWER);
    MUST(all(arena.start, arena.bytes, number == 0 || number == 4 || number == 5 ? 0 : RUBBISH) && all(arena.start - 64, 64, RUBBISH));
    size_t written = 0;
    if (number == 0 && answer.bytes == 8 * VARANDECO_PLAN_ANSWER)
        written = 24 * numbers(&answer)[VARANDECO_PLAN_PIECES];
    MUST(written <= plan.bytes);
    if (number != 0 || written)
        MUST(all(plan.start + written, plan.bytes - written, RUBBISH));
    MUST(all(plan.start - 64, 64, RUBBISH));
}

/* The planner's own plan is accepted, with the profit it says. */
static void see_promise(void)
{
    uint64_t a[VARANDECO_CHECK_ANSWER];
    const uint64_t *p = numbers(&answer);
    MUST(varandeco_check_numbers(numbers(&job), job.bytes / 8, numbers(&plan), 3 * p[VARANDECO_PLAN_PIECES], a, VARANDECO_CHECK_ANSWER) == 0);
    MUST(a[VARANDECO_PROFIT] == p[VARANDECO_PROFIT] && a[VARANDECO_CHECK_PIECES] == p[VARANDECO_PLAN_PIECES]);
}

/* Any number up to 191, and some up to 1,984. */
static size_t records(uint8_t b) { return b < 192 ? b : (size_t)(b - 191) * 31; }

int LLVMFuzzerTestOneInput(const uint8_t *data, size_t size)
{
    static uint64_t scratch[4096];
    if (size < 4)
        return 0;
    const uint8_t *at = data + 4, *end = data + size;
    lend(&arena, records(data[1]) * VARANDECO_RECORD_BYTES + data[3] % 32);
    lend(&plan, 8 * ((size_t)(data[2] % 64) * 3 + data[3] % 3));
    lend(&answer, 8 * (data[0] / 4 % 4 == 0 ? data[0] / 16 : data[0] % 2 == 0 ? VARANDECO_PLAN_ANSWER : VARANDECO_CHECK_ANSWER));
    int function = data[0] % 4, tamed = data[0] >= 128;
    if (function < 2 && !tamed) {
        lend(&text, end - at);
        memcpy(text.start, at, end - at);
    } else {
        /* L W k n, and as many types as that says; some jobs are cut short */
        static uint64_t drawn[4096];
        size_t n = spell(&at, end, scratch, 4);
        if (tamed)
            tame(scratch, n, drawn, 0);
        size_t types = n == 4 && scratch[3] < VARANDECO_TYPES_MOST ? scratch[3] : VARANDECO_TYPES_MOST;
        n += spell(&at, end, scratch + n, 4 * types);
        size_t count = spell(&at, end, drawn, 4096), cut = data[3] < 224 ? 0 : data[3] % 8;
        if (tamed) {
            if (n > 3)
                scratch[3]--;
            tame(scratch, n, drawn, count);
        }
        n = cut < n ? n - cut : 0;
        lend_numbers(&job, scratch, n);
        lend_numbers(&list, drawn, count);
        if (function < 2) {
            static char spelled[1 << 16];
            size_t length = write_text(spelled, scratch, n, drawn, count, function == 1);
            if (data[3] % 8 == 7)
                spelled[data[3] * 7 % length] = (char)data[1];
            lend(&text, length);
            memcpy(text.start, spelled, length);
        }
    }
    uint64_t *told = numbers(&answer), number;
    size_t room = answer.bytes / 8;
    switch (function) {
    case 0:
        see_plan(number = varandeco_plan_text(text.start, text.bytes, arena.start, arena.bytes, numbers(&plan), plan.bytes / 8, told, room));
        break;
    case 1:
        see_check(number = varandeco_check_text(text.start, text.bytes, told, room));
        break;
    case 2:
        number = varandeco_plan_numbers(numbers(&job), job.bytes / 8, arena.start, arena.bytes, numbers(&plan), plan.bytes / 8, told, room);
        see_plan(number);
        if (number == 0 && room == VARANDECO_PLAN_ANSWER)
            see_promise();
        break;
    default:
        see_check(number = varandeco_check_numbers(numbers(&job), job.bytes / 8, numbers(&list), list.bytes / 8, told, room));
    }
    note(function, number, told, room);
    return 0;
}
