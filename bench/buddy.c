/* Conjoins the clauses of a formula with BuDDy, as crates/dd_bench does with the kernel.

   buddy VARIABLES BUDGET CACHE < CLAUSES */
#include <bdd.h>
#include <stdio.h>
#include <stdlib.h>

static BDD literal_of(int number)
{
    return number > 0 ? bdd_ithvar(number - 1) : bdd_nithvar(-number - 1);
}

/* Replaces a diagram by another, which is referenced. */
static void replace(BDD *old, BDD new)
{
    bdd_addref(new);
    bdd_delref(*old);
    *old = new;
}

int main(int count, char **words)
{
    char line[4096];
    int nodes;
    BDD whole, clause;

    if (count != 4)
        return 1;
    /* The table has its full size from the start, as it would grow to it. */
    bdd_init(atoi(words[2]), atoi(words[3]));
    bdd_gbc_hook(NULL);
    bdd_setmaxnodenum(bdd_getallocnum() + 1);
    bdd_setvarnum(atoi(words[1]));
    whole = bdd_addref(bddtrue);
    while (fgets(line, sizeof line, stdin) != NULL) {
        char *at = line, *end;
        long number;
        clause = bdd_addref(bddfalse);
        while ((number = strtol(at, &end, 10)) != 0) {
            replace(&clause, bdd_or(clause, literal_of(number)));
            at = end;
        }
        replace(&whole, bdd_and(whole, clause));
        bdd_delref(clause);
    }
    nodes = bdd_nodecount(whole);
    printf("%d\n", nodes);
    bdd_done();
    return 0;
}
