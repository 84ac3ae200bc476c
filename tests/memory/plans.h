/* Texts of deeply nested plans. */
#ifndef PLANS_H
#define PLANS_H

#include "measure.h"

/* What stands behind T in a task line: nothing, or in edition 2 a space and U. */
static const char *resume = "";

/* Where the ifs of a nesting stand: around the loops, inside all loops but the last, or in turn with them. */
enum order { AROUND, INSIDE, IN_TURN, ORDERS };

/* A plan of one function with so many ifs and loops, each inside the last: their order, whether the ifs go on in their else parts, K of every line, the
 * bound of the loops, what stands in the innermost form, how many leaves follow the outermost one, and what stands before the function. A broken-off one
 * ends behind what stands in the innermost form. */
struct nesting {
    int ifs, loops;
    enum order order;
    int otherwise;
    char kind;
    unsigned rounds;
    const char *inside;
    int behind;
    const char *before;
    int broken_off;
};

/* The deepest nesting: 2 + 2 * 15 + 32 = 64 brackets and 32 levels. */
static const struct nesting DEEPEST = {15, 32, AROUND, 0, 'p', 1, "", 0, "", 0};

/* Whether the form i of a nesting, from outside, is an if. */
static int is_if(const struct nesting *nesting, int i)
{
    int ifs = nesting->ifs, loops = nesting->loops, common = ifs < loops ? ifs : loops;
    if (nesting->order == AROUND || loops == 0)
        return i < ifs;
    if (nesting->order == INSIDE)
        return loops - 1 <= i && i < loops - 1 + ifs;
    return i < 2 * common ? i % 2 == 0 : loops < ifs;
}

/* Writes the opening line of the form i, and for an if those of its parts up to the one that holds the next form. */
static char *opened(char *at, const struct nesting *nesting, int i)
{
    if (!is_if(nesting, i))
        return at + sprintf(at, "(loop %c %u 1 1\n", nesting->kind, nesting->rounds);
    return at + sprintf(at, "(if %c 1 1\n(then\n%s", nesting->kind, nesting->otherwise ? ")\n(else\n" : "");
}

/* Writes the closing lines of the form i. */
static char *closed(char *at, const struct nesting *nesting, int i)
{
    if (!is_if(nesting, i))
        return at + sprintf(at, ")\n");
    return at + sprintf(at, "%s)\n)\n", nesting->otherwise ? "" : ")\n(else\n");
}

/* Writes the forms of a nesting, without those behind the outermost one. */
static char *write_forms(char *at, const struct nesting *nesting)
{
    int forms = nesting->ifs + nesting->loops;
    for (int i = 0; i < forms; i++)
        at = opened(at, nesting, i);
    at += sprintf(at, "%s", nesting->inside);
    for (int i = forms - 1; 0 <= i && !nesting->broken_off; i--)
        at = closed(at, nesting, i);
    return at;
}

/* Makes the text that of a nesting. */
static void write_nesting(const struct nesting *nesting)
{
    char *at = text + sprintf(text, "(task 1099511627776 0%s\n%s(fun\n", resume, nesting->before);
    at = write_forms(at, nesting);
    for (int i = 0; i < nesting->behind; i++)
        at += sprintf(at, "(leaf %c 1 1)\n", nesting->kind);
    if (!nesting->broken_off)
        at += sprintf(at, ")\n)\n");
    bytes = (size_t)(at - text);
}

/* Writes a function of so many nested ifs around so many nested loops around a line, all points. */
static char *write_function(char *at, int ifs, int loops, const char *line)
{
    const struct nesting nesting = {ifs, loops, AROUND, 0, 'p', 1, line, 0, "", 0};
    at += sprintf(at, "(fun\n");
    at = write_forms(at, &nesting);
    return at + sprintf(at, ")\n");
}

/* The deepest place: main is a call in 31 nested ifs, and what it calls is 31 nested loops, so that a run stands at level 32 behind ifs at level 1. */
static void write_called(void)
{
    char *at = text + sprintf(text, "(task 1099511627776 0%s\n", resume);
    at = write_function(at, 0, 31, "");
    at = write_function(at, 31, 0, "(call p 0 1 1)\n");
    bytes = (size_t)(at + sprintf(at, ")\n") - text);
}

/* The longest way back: 16 functions, each a call of the one before in 31 nested ifs, 512 leaves in all. */
static void write_chain(void)
{
    char *at = text + sprintf(text, "(task 1099511627776 0%s\n", resume);
    char line[32] = "(leaf p 1 1)\n";
    for (int f = 0; f < ROLSIPAY_FUNCTIONS; f++) {
        at = write_function(at, 31, 0, line);
        sprintf(line, "(call p %d 1 1)\n", f);
    }
    bytes = (size_t)(at + sprintf(at, ")\n") - text);
}

#endif
