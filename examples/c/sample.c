/* Plans the sample job and checks the plan. It prints what the programs "plan" and "check" print of it. */
#include <inttypes.h>
#include <stdio.h>
#include "varandeco.h"

/* As many records as the program "plan" has. */
static uint8_t arena[2000 * VARANDECO_RECORD_BYTES];
static uint64_t plan[VARANDECO_PLAN_NUMBERS];

static void print(const uint64_t *numbers, size_t count)
{
    for (size_t i = 0; i < count; i++)
        printf("%" PRIu64 "%c", numbers[i], i + 1 < count ? ' ' : '\n');
}

int main(void)
{
    /* a sheet of 10 by 6, no kerf, one type: 5 by 3, profit 15, demand 4 */
    const uint64_t job[] = {10, 6, 0, 1, 5, 3, 15, 4};
    const size_t job_length = sizeof job / sizeof job[0];
    uint64_t planned[VARANDECO_PLAN_ANSWER], checked[VARANDECO_CHECK_ANSWER];

    uint64_t refusal = varandeco_plan_numbers(job, job_length, arena, sizeof arena, plan, VARANDECO_PLAN_NUMBERS, planned, VARANDECO_PLAN_ANSWER);
    print(planned, VARANDECO_PLAN_ANSWER);
    if (refusal != VARANDECO_DONE)
        return 1;

    const size_t pieces = planned[VARANDECO_PLAN_PIECES];
    print(&planned[VARANDECO_PLAN_PIECES], 1);
    for (size_t i = 0; i < pieces; i++)
        print(&plan[VARANDECO_PLACEMENT_NUMBERS * i], VARANDECO_PLACEMENT_NUMBERS);

    refusal = varandeco_check_numbers(job, job_length, plan, VARANDECO_PLACEMENT_NUMBERS * pieces, checked, VARANDECO_CHECK_ANSWER);
    print(checked, VARANDECO_CHECK_ANSWER);
    return refusal == VARANDECO_DONE ? 0 : 1;
}
