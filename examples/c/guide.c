/* Plays the runs that docs/GUIDE.md shows beside the marked cases: plan A in time, shared to the end and late, plan A with a cost of resuming, U, the smallest
 * plan, plan B, and the four traps. It is run at the top of the repository. Each run has a line with its name, then one line an answer. */
#include "answers.h"

#include <string.h>

/* What a step of a run calls; the release comes first, unasked. */
enum kind { STOP, REPORT, END };

/* A step of a run. */
struct step {
    enum kind kind;
    uint64_t reading, point;
};

/* A run: its name, the file of its plan, and its steps. */
struct run {
    const char *name, *plan;
    struct step steps[9];
};

#define R(point, reading) {REPORT, reading, point}
#define E(reading) {END, reading, 0}

static const struct run runs[] = {
    {"smallest", "examples/smallest.plan", {E(9)}},
    {"plan A, in time", "examples/plan-a.plan", {R(0, 0), R(1, 9), E(21)}},
    {"plan A, time won back", "examples/plan-a.plan", {R(0, 0), R(1, 9), R(1, 33), R(1, 57), R(1, 60), E(62)}},
    {"plan A, shared to the end", "examples/plan-a.plan", {R(0, 0), R(1, 4), R(1, 28), R(1, 52), R(1, 76), E(88)}},
    {"plan A, late", "examples/plan-a.plan", {R(0, 0), R(1, 100), R(1, 101), E(102)}},
    {"plan A with U, one return", "examples/plan-a-2.plan", {R(0, 0), R(1, 9), R(1, 33), R(1, 57), R(1, 73), E(88)}},
    {"plan A with U, two returns", "examples/plan-a-2.plan", {R(0, 0), R(1, 29), R(1, 35), R(1, 62), R(1, 78), E(93)}},
    {"plan A with U, visit 4 at 85", "examples/plan-a-2.plan", {R(0, 0), R(1, 9), R(1, 33), R(1, 57), R(1, 85), E(100)}},
    {"plan A with U, visit 4 at 86", "examples/plan-a-2.plan", {R(0, 0), R(1, 9), R(1, 33), R(1, 57), R(1, 86), E(94)}},
    {"plan B, else part", "examples/plan-b.plan", {R(1, 0), R(4, 13), R(0, 15), E(19)}},
    {"plan B, then part", "examples/plan-b.plan", {R(1, 0), R(0, 3), R(2, 3), R(0, 5), R(4, 9), R(0, 11), E(15)}},
    {"trap 1", "examples/traps/1-two-paths.plan", {R(0, 0), R(3, 12), E(42)}},
    {"trap 2", "examples/traps/2-stretch.plan", {R(0, 0), R(1, 6), E(16)}},
    {"trap 3", "examples/traps/3-release.plan", {R(1, 6), E(16)}},
    {"trap 4", "examples/traps/4-visits.plan", {R(2, 0), R(0, 1), R(0, 23), R(3, 25), R(0, 26), R(0, 48), E(50)}},
};

/* Plays a run from a fresh state. */
static void play(const struct run *run)
{
    memset(&state, 0, sizeof state);
    printf("%s\n", run->name);
    print(release());
    for (const struct step *step = run->steps; step->kind != STOP; step++)
        if (step->kind == REPORT)
            print(report(step->point, step->reading));
        else
            print(end(step->reading));
}

int main(void)
{
    for (size_t i = 0; i < sizeof runs / sizeof *runs; i++) {
        if (read_plan(runs[i].plan, ROLSIPAY_LEAVES).number != 0)
            return 1;
        play(&runs[i]);
    }
    return 0;
}
