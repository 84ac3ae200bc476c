/* Flips each bit of plan A's row, head and state, one at a time, makes a call on them, and counts the answers: how often a refusal's number, how often a word
 * that is not the right answer or not with its numbers, and how often the right answer all the same. The calls are the release, the third visit of the loop
 * and the end of the run where every visit takes its full cost. Before three further calls there, a first visit at 29, the fourth visit and an end at 101,
 * D and T alone are flipped. It is run at the top of the repository. */
#include "answers.h"

enum { WORDS = sizeof words / sizeof *words, REFUSALS = 18 };

/* A call with its point and its reading. */
typedef rolsipay_reply next_call(void);

/* The first visit of the loop, one tick after it could go on. */
static rolsipay_reply first_visit_at_29(void)
{
    return report(1, 29);
}

/* The third visit, which suspends. */
static rolsipay_reply third_visit_at_57(void)
{
    return report(1, 57);
}

/* The fourth visit, which is final. */
static rolsipay_reply fourth_visit_at_73(void)
{
    return report(1, 73);
}

/* The end of the run. */
static rolsipay_reply end_at_81(void)
{
    return end(81);
}

/* An end that is late. */
static rolsipay_reply end_at_101(void)
{
    return end(101);
}

/* The answer to a call, with the state set back behind it, so that every flip meets the same one. */
static rolsipay_reply tried(next_call *call)
{
    rolsipay_state before = state;
    rolsipay_reply reply = call();
    state = before;
    return reply;
}

/* Whether two answers are one, with all their numbers. */
static int same(rolsipay_reply a, rolsipay_reply b)
{
    return a.word == b.word && a.number == b.number && a.remaining == b.remaining && a.margin == b.margin && a.late == b.late;
}

/* Flips each bit of this memory, makes the call on it, and prints the counts that are not 0. */
static void flip(const char *what, void *memory, size_t bytes, next_call *call)
{
    unsigned refused[REFUSALS] = {0}, other[WORDS] = {0}, right = 0;
    uint8_t *at = memory;
    rolsipay_reply wanted = tried(call);
    for (size_t bit = 0; bit < 8 * bytes; bit++) {
        uint8_t kept = at[bit / 8];
        at[bit / 8] ^= (uint8_t)(1u << bit % 8);
        rolsipay_reply reply = tried(call);
        at[bit / 8] = kept;
        if (same(reply, wanted))
            right++;
        else if (reply.word == ROLSIPAY_REFUSED)
            refused[reply.number]++;
        else
            other[reply.word]++;
    }
    printf("%s, %zu flips:", what, 8 * bytes);
    for (size_t i = 0; i < REFUSALS; i++)
        if (refused[i] > 0)
            printf(" %u refused %zu", refused[i], i);
    for (size_t i = 0; i < WORDS; i++)
        if (other[i] > 0)
            printf(" %u %s", other[i], words[i]);
    if (right > 0)
        printf(" %u right", right);
    printf("\n");
}

#define FLIP(part, call) flip(#part, &part, sizeof part, call)

/* Prints the call's right answer, and flips D and T before it. */
static void flip_limits(const char *name, next_call *call)
{
    printf("%s: ", name);
    print(tried(call));
    FLIP(head.deadline, call);
    FLIP(head.switching, call);
}

/* Prints the call's right answer, and flips before it D and T, then the rest of the head, the row of the plan's leaves, and the state. */
static void flip_all(const char *name, next_call *call)
{
    flip_limits(name, call);
    flip("the rest of head", &head.edition, sizeof head - offsetof(rolsipay_head, edition), call);
    flip("row", row, head.leaves * sizeof *row, call);
    FLIP(state.running, call);
    FLIP(state.suspended, call);
    FLIP(state.reading, call);
    FLIP(state.level, call);
    FLIP(state.leaves, call);
    FLIP(state.earlier, call);
    FLIP(state.times, call);
}

int main(void)
{
    if (read_plan("examples/plan-a.plan", ROLSIPAY_LEAVES).number != 0)
        return 1;
    flip_all("release", release);
    release();
    report(0, 0);
    flip_limits("report 1 at 29", first_visit_at_29);
    report(1, 9);
    report(1, 33);
    flip_all("report 1 at 57", third_visit_at_57);
    report(1, 57);
    flip_limits("report 1 at 73", fourth_visit_at_73);
    report(1, 73);
    flip_all("end at 81", end_at_81);
    flip_limits("end at 101", end_at_101);
    return 0;
}
