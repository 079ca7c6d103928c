/* Makes the diagram of a model's products with BuDDy, again and again, and prints the processor seconds of one round without
   those of an empty table, and the nodes of the diagram. Where it is asked for them, it goes on with the dead, the core and
   the false-optional features: their processor seconds, and how many they are. The status is 6 where the nodes aren't
   enough: a model with no product is taken for that too.

       buddy_models listed|near NODES CACHE ROUNDS [analyses] < NUMBERS

   NUMBERS are those of bench/models.py. `listed` conjoins the groups from the last to the first, and then the rules in their
   order; `near` conjoins each rule as soon as all groups below the least feature above it are there. */
#include <bdd.h>
#include <stdio.h>
#include <stdlib.h>
#include <string.h>
#include <time.h>

struct group { int parent, low, high, count, *members; };
struct rule { int count, *literals, least, last, place; };

static int features, groups, rules, *parent_of, *end_of;
static struct group *group;
static struct rule *rule;

static int number(void)
{
    int it;

    if (scanf("%d", &it) != 1)
        exit(2);
    return it;
}

static int *numbers(int count)
{
    int *them = malloc((count + 1) * sizeof *them);

    for (int i = 0; i < count; i++)
        them[i] = number();
    return them;
}

static void read_model(void)
{
    features = number();
    groups = number();
    group = malloc((groups + 1) * sizeof *group);
    for (int i = 0; i < groups; i++) {
        group[i].parent = number();
        group[i].low = number();
        group[i].high = number();
        group[i].count = number();
        group[i].members = numbers(group[i].count);
    }
    rules = number();
    rule = malloc((rules + 1) * sizeof *rule);
    for (int i = 0; i < rules; i++) {
        rule[i].count = number();
        rule[i].literals = numbers(rule[i].count);
    }
}

/* Takes the place of a diagram by another one. */
static void put(bdd *at, bdd made)
{
    bdd_addref(made);
    bdd_delref(*at);
    *at = made;
}

/* From `low` to `high` members, counted from the last one up. */
static bdd between(const struct group *it, int low, int high)
{
    int most = it->count + 2; /* at least 2 */
    bdd *at = malloc(most * sizeof *at), made;

    for (int c = 0; c < most; c++)
        at[c] = bdd_addref(low <= c && c <= high ? bddtrue : bddfalse);
    for (int i = it->count - 1; i >= 0; i--)
        for (int c = 0; c <= i; c++)
            put(&at[c], bdd_ite(bdd_ithvar(it->members[i]), at[c + 1], at[c]));
    made = at[0];
    for (int c = 1; c < most; c++)
        bdd_delref(at[c]);
    free(at);
    return made;
}

static bdd row_of(const struct group *it)
{
    bdd parent = bdd_ithvar(it->parent), made = bdd_addref(bddtrue), some, none;

    if (it->low == it->count || (it->low == 0 && it->high >= it->count)) {
        for (int i = it->count - 1; i >= 0; i--) {
            bdd member = bdd_ithvar(it->members[i]);
            bdd one = bdd_addref(it->low ? bdd_biimp(member, parent) : bdd_imp(member, parent));
            put(&made, bdd_and(made, one));
            bdd_delref(one);
        }
        return made;
    }
    some = between(it, it->low, it->high);
    none = between(it, 0, 0);
    put(&made, bdd_ite(parent, some, none));
    bdd_delref(some);
    bdd_delref(none);
    return made;
}

static bdd clause_of(const struct rule *it)
{
    bdd made = bdd_addref(bddfalse);

    for (int i = 0; i < it->count; i++) {
        int literal = it->literals[i];
        put(&made, bdd_or(made, literal < 0 ? bdd_nithvar(-literal - 1) : bdd_ithvar(literal)));
    }
    return made;
}

static void meet(bdd *at, bdd with)
{
    put(at, bdd_and(*at, with));
    bdd_delref(with);
}

/* Parents and the ends of subtrees: features are numbered in document order. */
static void find_subtrees(void)
{
    parent_of = calloc(features + 1, sizeof *parent_of);
    end_of = malloc((features + 1) * sizeof *end_of);
    for (int i = 0; i < groups; i++)
        for (int j = 0; j < group[i].count; j++)
            parent_of[group[i].members[j]] = group[i].parent;
    for (int i = 0; i < features; i++)
        end_of[i] = i;
    for (int i = features - 1; i > 0; i--)
        if (end_of[i] > end_of[parent_of[i]])
            end_of[parent_of[i]] = end_of[i];
}

static int by_span(const void *a, const void *b)
{
    const struct rule *x = a, *y = b;

    return (x->last - x->least) - (y->last - y->least);
}

/* The rule goes behind the first group of the deepest feature above all of it. */
static void place_rules(void)
{
    for (int i = 0; i < rules; i++) {
        int at;
        rule[i].least = features;
        rule[i].last = 0;
        for (int j = 0; j < rule[i].count; j++) {
            int feature = rule[i].literals[j] < 0 ? -rule[i].literals[j] - 1 : rule[i].literals[j];
            if (feature < rule[i].least)
                rule[i].least = feature;
            if (feature > rule[i].last)
                rule[i].last = feature;
        }
        for (at = rule[i].least; at > 0 && end_of[at] < rule[i].last; at = parent_of[at])
            ;
        rule[i].place = groups;
        for (int g = groups - 1; g >= 0; g--)
            if (group[g].parent == at)
                rule[i].place = g;
        if (rule[i].place == groups)
            rule[i].place = 0;
    }
    qsort(rule, rules, sizeof *rule, by_span);
}

static bdd products(int near)
{
    bdd made = bdd_addref(bdd_ithvar(0));

    for (int g = groups - 1; g >= 0; g--) {
        meet(&made, row_of(&group[g]));
        for (int i = 0; near && i < rules; i++)
            if (rule[i].place == g)
                meet(&made, clause_of(&rule[i]));
    }
    for (int i = 0; i < rules; i++)
        if (!near || !groups)
            meet(&made, clause_of(&rule[i]));
    return made;
}

struct found { int dead, core, kept; };

/* A feature is dead where no product has it, and core where none lacks it. A member is false-optional where it isn't dead,
   its group lets the parent leave one out, and no product with the parent lacks it. Each is one meet with a literal. */
static struct found analyse(bdd made)
{
    struct found found = {0, 0, 0};
    char *is_dead = calloc(features, 1), *is_kept = calloc(features, 1);

    for (int i = 0; i < features; i++) {
        is_dead[i] = bdd_and(made, bdd_ithvar(i)) == bddfalse;
        found.dead += is_dead[i];
        found.core += bdd_and(made, bdd_nithvar(i)) == bddfalse;
    }
    for (int g = 0; g < groups; g++) {
        bdd with;
        if (group[g].low >= group[g].count)
            continue;
        with = bdd_addref(bdd_and(made, bdd_ithvar(group[g].parent)));
        for (int i = 0; i < group[g].count; i++) {
            int member = group[g].members[i];
            if (!is_dead[member] && bdd_and(with, bdd_nithvar(member)) == bddfalse)
                is_kept[member] = 1;
        }
        bdd_delref(with);
    }
    for (int i = 0; i < features; i++)
        found.kept += is_kept[i];
    free(is_dead);
    free(is_kept);
    return found;
}

static double seconds_since(clock_t began)
{
    return (double)(clock() - began) / CLOCKS_PER_SEC;
}

int main(int count, char **words)
{
    int near, nodes = 0, with_analyses = count == 6 && !strcmp(words[5], "analyses");
    double seconds = 0, more = 0;
    struct found found = {0, 0, 0};

    if (count != 5 && !with_analyses)
        return 2;
    near = !strcmp(words[1], "near");
    read_model();
    if (near) {
        find_subtrees();
        place_rules();
    }
    for (int i = atoi(words[4]); i > 0; i--) {
        clock_t began;
        bdd made;

        bdd_init(atoi(words[2]), atoi(words[3]));
        bdd_gbc_hook(NULL);
        bdd_error_hook(NULL);
        bdd_setmaxnodenum(bdd_getallocnum() + 1);
        bdd_setvarnum(features);
        began = clock();
        made = products(near);
        seconds += seconds_since(began) / atoi(words[4]);
        nodes = bdd_nodecount(made);
        if (with_analyses) {
            began = clock();
            found = analyse(made);
            more += seconds_since(began) / atoi(words[4]);
        }
        bdd_done();
        if (!nodes)
            return 6;
    }
    printf("%.6f %d", seconds, nodes);
    if (with_analyses)
        printf(" %.6f %d %d %d", more, found.dead, found.core, found.kept);
    printf("\n");
    return 0;
}
