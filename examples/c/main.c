/* Reads the plan in the file that it is given and plays the marked cases m1 to m5 of plan A, m5 as document 02 has it, each from a fresh state, one line an
 * answer. The file may have plan A with a third number in its task line too. */
#include "answers.h"

#include <string.h>

/* A report of a point with a reading. */
struct report {
    uint64_t point, reading;
};

/* Plays the reports from a fresh state. */
static void play(const char *name, const struct report *reports, size_t count)
{
    memset(&state, 0, sizeof state);
    printf("%s\n", name);
    print(release());
    for (size_t i = 0; i < count; i++)
        print(report(reports[i].point, reports[i].reading));
}

#define PLAY(name, reports) play(name, reports, sizeof reports / sizeof *reports)

int main(int argc, char **argv)
{
    static const struct report m1_m4_m5[] = {{0, 0}, {1, 9}, {1, 33}, {1, 50}, {1, 88}, {1, 88}};
    static const struct report m2_goes[] = {{0, 0}, {1, 28}};
    static const struct report m2_suspends[] = {{0, 0}, {1, 29}};
    static const struct report m3[] = {{0, 0}, {1, 9}, {1, 33}, {1, 57}, {1, 73}};
    static const struct report m5_suspends[] = {{0, 0}, {1, 9}, {1, 33}, {1, 50}, {1, 89}};
    if (argc != 2) {
        fprintf(stderr, "use: %s PLAN\n", argv[0]);
        return 2;
    }
    rolsipay_ruling ruling = read_plan(argv[1], ROLSIPAY_LEAVES);
    if (ruling.number != 0) {
        printf("refused %" PRIu64 " %" PRIu64 "\n", ruling.number, ruling.line);
        return 1;
    }
    printf("task %" PRIu64 " %" PRIu64 " %" PRIu64 " %" PRIu64, head.total, head.max_load_total, head.deadline, head.switching);
    if (head.edition == 2)
        printf(" %" PRIu64, head.resuming);
    printf("\n");
    PLAY("m1 m4 m5", m1_m4_m5);
    PLAY("m2", m2_goes);
    PLAY("m2", m2_suspends);
    PLAY("m3", m3);
    print(end(81));
    PLAY("m5", m5_suspends);
    return 0;
}
