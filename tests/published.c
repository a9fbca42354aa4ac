/* Plans published jobs through the static library, with the largest arena, and compares with a table (examples/published/TABLE).
 * published FOLDER: every row of the folder's TABLE. */
#include <inttypes.h>
#include <stdio.h>
#include <stdlib.h>
#include <string.h>
#include <time.h>
#include "varandeco.h"

static uint8_t arena[VARANDECO_RECORDS_MOST * VARANDECO_RECORD_BYTES];
static uint64_t plan[VARANDECO_PLAN_NUMBERS];
static char text[65536];

/* What the processor worked so far, whatever else the machine did. */
static double milliseconds(void)
{
    struct timespec t;
    clock_gettime(CLOCK_PROCESS_CPUTIME_ID, &t);
    return t.tv_sec * 1e3 + t.tv_nsec * 1e-6;
}

/* The job text into `text`; its length. */
static size_t read_job(const char *folder, const char *name)
{
    char path[1024];
    snprintf(path, sizeof path, "%s/%s.job", folder, name);
    FILE *f = fopen(path, "rb");
    if (!f) {
        printf("no %s\n", path);
        exit(1);
    }
    size_t length = fread(text, 1, sizeof text, f);
    fclose(f);
    return length;
}

/* The job text and the plan behind it, as a plan text: the checker's refusal of it, and the profit. */
static uint64_t check_plan(size_t length, size_t pieces, uint64_t *profit)
{
    uint64_t answer[VARANDECO_CHECK_ANSWER];
    length += sprintf(text + length, "%zu\n", pieces);
    for (size_t i = 0; i < pieces; i++)
        length += sprintf(text + length, "%" PRIu64 " %" PRIu64 " %" PRIu64 "\n", plan[3 * i], plan[3 * i + 1], plan[3 * i + 2]);
    varandeco_check_text((const uint8_t *)text, length, answer, VARANDECO_CHECK_ANSWER);
    *profit = answer[VARANDECO_PROFIT];
    return answer[VARANDECO_NUMBER];
}

/* Reads one row's job, plans it, compares. */
static int row(const char *folder, const char *name, char *rest)
{
    uint64_t answer[VARANDECO_PLAN_ANSWER], expected[VARANDECO_PLAN_ANSWER], counts[VARANDECO_TYPES_MOST + 1] = {0}, profit = 0;
    size_t length = read_job(folder, name);
    memset(arena, 0xa5, sizeof arena);
    double start = milliseconds();
    varandeco_plan_text((const uint8_t *)text, length, arena, sizeof arena, plan, VARANDECO_PLAN_NUMBERS, answer, VARANDECO_PLAN_ANSWER);
    double took = milliseconds() - start;
    int good = 1;
    for (int i = 0; i < VARANDECO_PLAN_ANSWER; i++) {
        expected[i] = strtoull(rest, &rest, 10);
        good = good && answer[i] == expected[i];
    }
    if (good && answer[VARANDECO_NUMBER] == VARANDECO_DONE) {
        size_t pieces = answer[VARANDECO_PLAN_PIECES];
        for (size_t i = 0; i < pieces; i++)
            counts[plan[3 * i] <= VARANDECO_TYPES_MOST ? plan[3 * i] : 0]++;
        for (int t = 1; t <= VARANDECO_TYPES_MOST; t++)
            good = good && counts[t] == strtoull(rest, &rest, 10);
        good = good && counts[0] == 0 && check_plan(length, pieces, &profit) == VARANDECO_DONE && profit == answer[VARANDECO_PROFIT];
    }
    printf("%-4s %s  number %" PRIu64 " place %" PRIu64 " profit %" PRIu64 " outline %" PRIu64 " by %" PRIu64 " pieces %" PRIu64 " N %" PRIu64 "  (%.1f ms)\n", name, good ? "ok" : "DIFFERS",
           answer[0], answer[1], answer[2], answer[3], answer[4], answer[5], answer[6], took);
    fflush(stdout);
    return good;
}

int main(int argc, char **argv)
{
    char path[1024], line[512], name[64];
    int rows = 0, bad = 0, at;
    if (argc != 2)
        return 2;
    snprintf(path, sizeof path, "%s/TABLE", argv[1]);
    FILE *table = fopen(path, "r");
    if (!table)
        return 2;
    while (fgets(line, sizeof line, table)) {
        if (line[0] == '#' || sscanf(line, "%63s %n", name, &at) < 1)
            continue;
        rows++;
        bad += !row(argv[1], name, line + at);
    }
    fclose(table);
    printf("published: %d jobs planned, %d differ\n", rows, bad);
    return rows == 0 || bad != 0;
}
