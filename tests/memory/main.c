/* Measures how much stack each delivered call takes, over families of plans, texts, tables and states that go as deep as they can, and holds it to the
 * figures of docs/MEMORY.md, which it is given, and to the header's; so it does with the sizes of what the caller lends, and with code, read-only data and
 * variables of the library, which it is given too. It fails where a figure is too small, where another case goes deeper than the one that docs/MEMORY.md
 * names, or where a call is not answered as it must be. Its last line is 'N passed, M failed'. */
#include "plans.h"

static int passed, failed;

/* Calls that were not answered as they must be. */
static int astray;

/* Counts a check, and says what failed. */
static void check(int yes, const char *what)
{
    passed += yes;
    failed += !yes;
    if (!yes)
        printf("failed: %s\n", what);
}

/* Measures a call, which must be refused by this number, or accepted where it is 0. */
static void expect(uint64_t number, enum call call, uint64_t point, const char *what)
{
    uint64_t got = measured(call, point);
    if (got != number)
        printf("%s, call %d: %d, not %d\n", what, call, (int)got, (int)number);
    astray += got != number;
}

/* Reads the text, which must be accepted, and makes the state fresh. */
static void read_accepted(const char *what)
{
    expect(0, READ, 0, what);
    memset(&state, 0, sizeof state);
}

/* The calls on a nesting: release, a report of each point from outside in, of which the last is measured, the release once more, and the end, which no run
 * can reach from inside a loop whose condition must be visited again. */
static void play(const struct nesting *nesting, const char *what)
{
    int last = nesting->ifs + nesting->loops - 1, level = 1;
    write_nesting(nesting);
    read_accepted(what);
    expect(0, RELEASE, 0, what);
    if (nesting->kind == 's') {
        expect(ROLSIPAY_STRANGER, REPORT, 0, what);
        expect(0, END, 0, what);
        return;
    }
    for (int i = 0; i < last; i++) {
        astray += answered(REPORT, (uint64_t)i) != 0;
        level += !is_if(nesting, i);
    }
    expect(0, REPORT, (uint64_t)last, what);
    expect(ROLSIPAY_BUSY, RELEASE, 0, what);
    expect(level == 1 ? 0 : ROLSIPAY_ASTRAY, END, 0, what);
}

/* Every mix of ifs and loops that the brackets and levels allow and no further loop fits into: in three orders, with then and else parts, points and silent
 * leaves, with an empty innermost body or, where level 32 leaves room, a leaf in it. */
static void mixes(void)
{
    for (int ifs = 0; ifs <= 31; ifs++) {
        int most = ROLSIPAY_BRACKETS - 2 - 2 * ifs;
        int loops = most < ROLSIPAY_LEVELS ? most : ROLSIPAY_LEVELS;
        for (int variant = 0; variant < ORDERS * 8; variant++) {
            struct nesting nesting = DEEPEST;
            nesting.ifs = ifs;
            nesting.loops = loops;
            nesting.order = (enum order)(variant / 8);
            nesting.otherwise = variant / 4 % 2;
            nesting.kind = variant / 2 % 2 ? 's' : 'p';
            nesting.inside = variant % 2 && loops < ROLSIPAY_LEVELS ? "(leaf s 1 1)\n" : "";
            play(&nesting, "mix");
        }
    }
}

/* A line in the innermost body of the deepest nesting, where a form would have level 33, and what refuses the text. */
struct refused {
    const char *line;
    uint64_t number;
};

/* Texts that are refused at their deepest line, the last of them. */
static void refused_lines(void)
{
    static char digits[60000];
    static const struct refused lines[] = {
        {"(leaf p 1 1)\n", ROLSIPAY_DEPTH},
        {"(loop p 1 1 1\n", ROLSIPAY_DEPTH},
        {"(if p 1 1\n", ROLSIPAY_DEPTH},
        {"(call p 0 1 1)\n", ROLSIPAY_TARGET},
        {"(leaf p 2 1)\n", ROLSIPAY_LOAD},
        {"(leaf p 0 1)\n", ROLSIPAY_COSTLESS},
        {"(call p 0 0 1)\n", ROLSIPAY_COSTLESS},
        {"(loop p 1 0 1\n", ROLSIPAY_COSTLESS},
        {"(if p 0 1\n", ROLSIPAY_COSTLESS},
        {"(leaf p 1048577 1048577)\n", ROLSIPAY_RANGE},
        {digits, ROLSIPAY_RANGE},
        {"(then\n", ROLSIPAY_FORM},
        {"(loop p 01 1 1\n", ROLSIPAY_FORM},
        {"(leaf p 1 1", ROLSIPAY_FORM},
        {"", ROLSIPAY_FORM},
    };
    struct nesting nesting = DEEPEST;
    memset(digits, '9', sizeof digits);
    memcpy(digits, "(leaf p ", 8);
    memcpy(digits + sizeof digits - 5, " 1)\n", 5);
    nesting.broken_off = 1;
    for (size_t i = 0; i < sizeof lines / sizeof *lines; i++) {
        nesting.inside = lines[i].line;
        write_nesting(&nesting);
        expect(lines[i].number, READ, 0, lines[i].line);
    }
}

/* Reads the text of a nesting, which must be refused. */
static void refuse(struct nesting nesting, uint64_t number, const char *what)
{
    write_nesting(&nesting);
    expect(number, READ, 0, what);
}

/* Texts that are refused for more than their deepest line. */
static void refused_texts(void)
{
    refuse((struct nesting){15, 32, AROUND, 0, 'p', 1, "", ROLSIPAY_LEAVES, "", 0}, ROLSIPAY_COUNT, "count");
    refuse((struct nesting){15, 31, AROUND, 0, 's', 1, "(leaf p 1 1)\n", 0, "", 0}, ROLSIPAY_UNSEEN, "unseen");
    refuse((struct nesting){15, 32, AROUND, 0, 'p', 1, "", 0, "(fun\n)\n", 0}, ROLSIPAY_UNCALLED, "uncalled");
    refuse((struct nesting){15, 32, AROUND, 0, 'p', ROLSIPAY_ROUNDS, "", 0, "", 0}, ROLSIPAY_LONG, "long");
    memset(text, ' ', sizeof text);
    bytes = sizeof text;
    expect(ROLSIPAY_FORM, READ, 0, "spaces");
}

/* Every call on the table as it is, which must be that of no plan, with an idle state and with a running one. */
static void broken(const char *what)
{
    for (uint64_t running = 0; running < 2; running++) {
        state.running = running;
        for (enum call call = RELEASE; call < CALLS; call++)
            expect(ROLSIPAY_BROKEN, call, 0, what);
    }
}

/* A row of 512 records, each with all the later ones inside it: the first so many are ifs, the others loops, with the levels that they have by their
 * nesting. */
static void nested_row(uint64_t ifs, int otherwise)
{
    memset(&head, 0, sizeof head);
    head.deadline = 1;
    head.edition = 1;
    head.leaves = ROLSIPAY_LEAVES;
    head.functions = 1;
    head.bounds[1] = ROLSIPAY_LEAVES;
    for (uint64_t i = 0; i < ROLSIPAY_LEAVES; i++) {
        rolsipay_leaf loop = {2, 1, 1, 1, 1, 0, ROLSIPAY_LEAVES, i < ifs ? 1 : i - ifs + 1, 0, 0, 0};
        row[i] = loop;
        if (i < ifs) {
            row[i].kind = 3;
            row[i].detail = 0;
            row[i].other = otherwise ? i + 1 : ROLSIPAY_LEAVES;
        }
    }
}

/* Tables of no plan: the deepest plan's with one number changed, with its deepest point costing nothing, with a record too deep, and rows whose records nest
 * 512 deep. */
static void broken_tables(void)
{
    write_nesting(&DEEPEST);
    uint64_t *const changed[] = {&head.max_load_totals[0], &head.max_load_totals[ROLSIPAY_FUNCTIONS - 1], &head.totals[0], &head.max_load_total, &head.total,
                                 &row[0].max_load_turn, &row[46].max_load_turn, &row[46].tail, &row[46].turn, &row[46].level};
    for (size_t i = 0; i < sizeof changed / sizeof *changed; i++) {
        read_accepted("deepest");
        *changed[i] += 1;
        broken("a number changed");
    }
    read_accepted("deepest");
    row[46].isolated = 0;
    broken("a point that costs nothing");
    read_accepted("deepest");
    for (int i = 0; i < 47; i++)
        row[i].after = 48;
    row[47] = (rolsipay_leaf){0, 1, 1, 1, 0, 0, 48, 33, 0, 0, 0};
    head.leaves = 48;
    head.bounds[1] = 48;
    broken("a leaf at level 33");
    for (uint64_t ifs = 0; ifs <= ROLSIPAY_LEAVES; ifs++) {
        nested_row(ifs, ifs % 2 == 0);
        broken("512 nested records");
    }
}

/* Every call on a running state that no run leads to. */
static void lost(const char *what)
{
    for (enum call call = RELEASE; call < CALLS; call++)
        expect(ROLSIPAY_BROKEN, call, 0, what);
}

/* The state of the deepest place, first as it is, then changed so that no run stands there. In edition 2 the others are suspended before each report that is
 * measured, and resume. */
static void places(void)
{
    write_called();
    read_accepted("called");
    expect(0, RELEASE, 0, "called");
    for (uint64_t point = 31; point <= 62; point++)
        astray += answered(REPORT, point) != 0;
    for (uint64_t point = 0; point < 31; point++) {
        state.suspended = head.edition == 2;
        expect(0, REPORT, point, "called");
        astray += state.suspended != 0;
    }
    expect(ROLSIPAY_BUSY, RELEASE, 0, "called");
    expect(ROLSIPAY_ASTRAY, REPORT, 31, "called");
    expect(ROLSIPAY_ASTRAY, END, 0, "called");
    const rolsipay_state good = state;
    uint64_t *const changed[] = {&state.level, &state.times[0], &state.times[32], &state.earlier[1], &state.leaves[1], &state.leaves[32], &state.earlier[32]};
    for (size_t i = 0; i < sizeof changed / sizeof *changed; i++) {
        state = good;
        *changed[i] += 2;
        lost("a number of the state changed");
        *changed[i] = UINT64_MAX;
        lost("a number of the state over all bounds");
    }
}

/* The run through 16 functions, which comes back through all of them at its end. */
static void chain(void)
{
    write_chain();
    read_accepted("chain");
    expect(0, RELEASE, 0, "chain");
    for (uint64_t f = ROLSIPAY_FUNCTIONS; 0 < f; f--)
        for (uint64_t point = 32 * (f - 1); point < 32 * f; point++)
            astray += answered(REPORT, point) != 0;
    expect(ROLSIPAY_ASTRAY, REPORT, 480, "chain");
    expect(0, END, 0, "chain");
}

/* What each call takes on the deepest nesting, with so many leaves behind it; for reading also with a leaf at level 33 in it, at which the text is refused. */
static void nested(int behind, size_t taken[CALLS])
{
    struct nesting nesting = DEEPEST;
    nesting.behind = behind;
    memset(deepest, 0, sizeof deepest);
    play(&nesting, "deepest");
    nesting.inside = "(leaf p 1 1)\n";
    nesting.broken_off = 1;
    write_nesting(&nesting);
    expect(ROLSIPAY_DEPTH, READ, 0, "deepest, with a leaf in it");
    memcpy(taken, deepest, sizeof deepest);
}

/* What a call takes in these cases alone. */
static size_t alone(void (*cases)(void), enum call call)
{
    memset(deepest, 0, sizeof deepest);
    cases();
    return deepest[call];
}

/* Holds the stack of each call to the documented figures, and prints it. docs/MEMORY.md names a case for each: reading and a release take the most on the
 * deepest nesting, a report at the deepest place, an end where it comes back through 16 functions. */
static void stacks(const size_t documented[CALLS])
{
    static const char *const names[CALLS] = {"rolsipay_read", "rolsipay_release", "rolsipay_report", "rolsipay_end"};
    size_t small[CALLS], large[CALLS];
    nested(0, small);
    nested(ROLSIPAY_LEAVES - 47, large);
    const size_t named[CALLS] = {large[READ], large[RELEASE], alone(places, REPORT), alone(chain, END)};
    memcpy(deepest, large, sizeof deepest);
    mixes();
    refused_lines();
    refused_texts();
    broken_tables();
    places();
    chain();
    resume = " 3";
    play(&DEEPEST, "deepest, edition 2");
    places();
    chain();
    for (int i = 0; i < CALLS; i++) {
        printf("stack of %s: %zu bytes, documented %zu\n", names[i], deepest[i], documented[i]);
        check(deepest[i] <= documented[i], "more stack than docs/MEMORY.md says");
        check(deepest[i] == named[i], "another case goes deeper than the one that docs/MEMORY.md names");
        check(small[i] == large[i], "the plan of 47 leaves does not take as much as the one of 512");
        check(documented[i] == (i == READ ? ROLSIPAY_STACK_READ : ROLSIPAY_STACK_CALL), "the header says another stack than docs/MEMORY.md");
    }
    check(astray == 0, "calls were not answered as they must be");
}

/* Holds what is in the library to docs/MEMORY.md, given each documented figure and behind it the one that was found. */
static void library(char **figures)
{
    static const char *const names[] = {"code", "read-only data", "variables"};
    for (int i = 0; i < 3; i++) {
        const size_t documented = strtoull(figures[2 * i], NULL, 10), found = strtoull(figures[2 * i + 1], NULL, 10);
        printf("%s of the library: %zu bytes, documented %zu\n", names[i], found, documented);
        check(found <= documented, "more in the library than docs/MEMORY.md says");
    }
    check(0 < strtoull(figures[1], NULL, 10), "no code in the library");
}

int main(int count, char **figures)
{
    static const size_t sizes[] = {sizeof(rolsipay_leaf), sizeof row, sizeof head, sizeof state};
    size_t documented[CALLS];
    if (count != 15) {
        fprintf(stderr, "use: %s LEAF ROW HEAD STATE READ RELEASE REPORT END CODE FOUND DATA FOUND VARIABLES FOUND\n", figures[0]);
        return 2;
    }
    for (int i = 0; i < 4; i++) {
        printf("%s: %zu bytes, documented %s\n", (const char *[]){"leaf", "row", "head", "state"}[i], sizes[i], figures[i + 1]);
        check(strtoull(figures[i + 1], NULL, 10) == sizes[i], "another size than docs/MEMORY.md says");
        documented[i] = strtoull(figures[i + 5], NULL, 10);
    }
    stacks(documented);
    library(figures + 9);
    printf("%d passed, %d failed\n", passed, failed);
    return failed != 0;
}
