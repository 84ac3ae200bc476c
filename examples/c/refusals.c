/* Provokes every refusal of a call, 11 to 17, and the one of reading that needs a short row, 4. It is given plan A and a plan that is unfit; each line has
 * the refusal's word, what was called, and the answer. */
#include "answers.h"

#include <string.h>

/* Prints what was called, and its answer. */
static void show(const char *what, rolsipay_reply reply)
{
    printf("%s: ", what);
    print(reply);
}

/* A fresh state, released. */
static void begin(void)
{
    memset(&state, 0, sizeof state);
    release();
}

/* The table that plan A would have if leaf 0, a point, cost nothing. Its numbers agree with one another, but that plan is refused by 19. */
static void costless(void)
{
    row[0].isolated = 0;
    row[0].tail = head.total = head.totals[0] = 44;
    show("broken, release on the table that plan A would have if leaf 0 cost nothing", release());
    row[0].isolated = 5;
    row[0].tail = head.total = head.totals[0] = 49;
}

/* A table that is no plan's, then a running state with one number changed, and the state mended. */
static void broken(void)
{
    row[2].isolated = 11;
    show("broken, release on a row with a cost changed from 10 to 11", release());
    row[2].isolated = 10;
    costless();
    begin();
    state.times[0] = 48;
    show("broken, report 0 at 0 with the total in the state changed from 49 to 48", report(0, 0));
    state.times[0] = 49;
    show("mended, report 0 at 0", report(0, 0));
}

/* Calls without a release, and a release on top of one. */
static void idle_and_busy(void)
{
    memset(&state, 0, sizeof state);
    show("idle, report 0 at 0 before a release", report(0, 0));
    show("idle, end at 0 before a release", end(0));
    begin();
    show("busy, release after a release", release());
}

/* Numbers that are no point of plan A. */
static void strangers(void)
{
    begin();
    show("stranger, report 2, a silent leaf, at 0", report(2, 0));
    show("stranger, report 4, no leaf, at 0", report(4, 0));
}

/* Readings below the last one, and one that is equal. */
static void backward(void)
{
    begin();
    report(0, 5);
    show("backward, report 1 at 4 after report 0 at 5", report(1, 4));
    show("backward, end at 4 after report 0 at 5", end(4));
    show("equal, report 1 at 5 after report 0 at 5", report(1, 5));
}

/* Reports and ends that no run has. */
static void astray(void)
{
    begin();
    show("astray, report 1 at 0 before report 0", report(1, 0));
    show("astray, end at 0 before any report", end(0));
    show("in order, report 0 at 0", report(0, 0));
    show("astray, report 0 at 9 again", report(0, 9));
    for (uint64_t visit = 1; visit <= 4; visit++)
        report(1, 9);
    show("astray, report 1 at 9, a fifth visit of 4", report(1, 9));
}

int main(int argc, char **argv)
{
    if (argc != 3) {
        fprintf(stderr, "use: %s PLAN-A UNFIT\n", argv[0]);
        return 2;
    }
    rolsipay_ruling ruling = read_plan(argv[1], 3);
    printf("count, plan A read into a row of 3 records: refused %" PRIu64 " %" PRIu64 "\n", ruling.number, ruling.line);
    ruling = read_plan(argv[1], ROLSIPAY_LEAVES);
    if (ruling.number != 0)
        return 1;
    broken();
    idle_and_busy();
    strangers();
    backward();
    astray();
    memset(&state, 0, sizeof state);
    ruling = read_plan(argv[2], ROLSIPAY_LEAVES);
    if (ruling.number != 0)
        return 1;
    show("unfit, release with total 7, T 3 and D 9", release());
    return 0;
}
