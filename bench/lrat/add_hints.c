/* Makes a refutation in the LRAT format of one that has no hints.
 *
 *   add_hints f.cnf p.drup p.lrat
 *
 * Solvers of other makers write lemmas without hints (DRUP; the text form of DRAT, where no lemma needs more than unit
 * propagation). For each lemma this program takes its literals as false, propagates over watched literals until a clause is
 * false, and writes the clauses that were used, in the order of the trail. It ends with status 1 where a lemma doesn't
 * follow that way. */
#include <stdio.h>
#include <stdlib.h>
#include <string.h>

typedef struct { long id; int size, dead, *lits; } Clause;
typedef struct { int count, room; Clause **at; } List;

static int n, *trail, trail_size, head;
static signed char *value, *seen, *given;
static Clause **reason;
static List *watches, *buckets;
static unsigned long bucket_mask = (1 << 20) - 1;
static long next_id = 1;
static FILE *out;

static int index_of(int lit) { return lit > 0 ? 2 * lit : -2 * lit + 1; }
static int value_of(int lit) { int v = value[abs(lit)]; return lit > 0 ? v : -v; }
static void add(List *l, Clause *c) {
    if (l->count == l->room) { l->room = l->room ? 2 * l->room : 4; l->at = realloc(l->at, l->room * sizeof *l->at); }
    l->at[l->count++] = c;
}
static unsigned long key_of(const int *lits, int size) {
    unsigned long sum = 0, product = 1;
    for (int i = 0; i < size; i++) { unsigned long x = (unsigned long)(lits[i] + 1000000007L) * 0x9E3779B97F4A7C15UL; sum += x ^ x >> 29; product *= 2 * x + 1; }
    return (sum + 31 * product) >> 13 & bucket_mask;
}
static int before(const void *a, const void *b) { int x = *(const int *)a, y = *(const int *)b; return x < y ? -1 : x > y; }
static int same(const Clause *c, const int *lits, int size) {
    if (c->size != size) return 0;
    int *a = malloc(2 * size * sizeof(int) + 1), *b = a + size;
    memcpy(a, c->lits, size * sizeof(int)); memcpy(b, lits, size * sizeof(int));
    qsort(a, size, sizeof(int), before); qsort(b, size, sizeof(int), before);
    int equal = !memcmp(a, b, size * sizeof(int));
    free(a);
    return equal;
}
static void assign(int lit, Clause *why) { value[abs(lit)] = lit > 0 ? 1 : -1; reason[abs(lit)] = why; trail[trail_size++] = lit; }
static Clause *propagate(void) {
    while (head < trail_size) {
        int lit = -trail[head++];
        List *ws = &watches[index_of(lit)];
        int kept = 0;
        for (int i = 0; i < ws->count; i++) {
            Clause *c = ws->at[i];
            if (c->dead) continue;
            if (c->lits[0] == lit) { c->lits[0] = c->lits[1]; c->lits[1] = lit; }
            if (value_of(c->lits[0]) > 0) { ws->at[kept++] = c; continue; }
            int k = 2;
            while (k < c->size && value_of(c->lits[k]) < 0) k++;
            if (k < c->size) { c->lits[1] = c->lits[k]; c->lits[k] = lit; add(&watches[index_of(c->lits[1])], c); continue; }
            ws->at[kept++] = c;
            if (value_of(c->lits[0]) < 0) { while (++i < ws->count) ws->at[kept++] = ws->at[i]; ws->count = kept; return c; }
            assign(c->lits[0], c);
        }
        ws->count = kept;
    }
    return 0;
}
/* puts a clause under the next number; the two literals that are false last come first; answers a clause that is false */
static Clause *take_in(const int *lits, int size) {
    Clause *c = malloc(sizeof *c);
    c->id = next_id++; c->size = size; c->dead = 0;
    c->lits = malloc((size ? size : 1) * sizeof(int)); memcpy(c->lits, lits, size * sizeof(int));
    add(&buckets[key_of(lits, size)], c);
    int free_ones = 0;
    for (int i = 0; i < size && free_ones < 2; i++) if (value_of(c->lits[i]) >= 0) { int t = c->lits[free_ones]; c->lits[free_ones++] = c->lits[i]; c->lits[i] = t; }
    if (size > 1) { add(&watches[index_of(c->lits[0])], c); add(&watches[index_of(c->lits[1])], c); }
    if (!free_ones) return c;
    if (free_ones == 1 && !value_of(c->lits[0])) { assign(c->lits[0], c); return propagate(); }
    return 0;
}
static void write_hints(Clause *conflict, long *hints) {
    int count = 0;
    for (int i = 0; i < conflict->size; i++) seen[abs(conflict->lits[i])] = 1;
    for (int i = trail_size; i--; ) {
        int v = abs(trail[i]);
        if (!seen[v]) continue;
        seen[v] = 0;
        Clause *c = reason[v];
        if (!c || given[v]) continue;
        hints[count++] = c->id;
        for (int k = 0; k < c->size; k++) if (abs(c->lits[k]) != v) seen[abs(c->lits[k])] = 1;
    }
    while (count) fprintf(out, " %ld", hints[--count]);
    fprintf(out, " %ld 0\n", conflict->id);
}
int main(int argc, char **argv) {
    if (argc != 4) { fprintf(stderr, "usage: add_hints f.cnf p.drup p.lrat\n"); return 2; }
    FILE *cnf = fopen(argv[1], "r"), *proof = fopen(argv[2], "r");
    out = fopen(argv[3], "w");
    if (!cnf || !proof || !out) return 2;
    int m, size = 0, lit, room = 1 << 20, *lits = malloc(room * sizeof(int));
    char word[64];
    while (fscanf(cnf, "%63s", word) == 1 && word[0] == 'c') { int c; while ((c = getc(cnf)) != '\n' && c != EOF) ; }
    if (fscanf(cnf, "%63s %d %d", word, &n, &m) != 3) return 2;
    trail = calloc(n + 1, sizeof(int)); value = calloc(n + 1, 1); seen = calloc(n + 1, 1); given = calloc(n + 1, 1); reason = calloc(n + 1, sizeof *reason);
    watches = calloc(2 * n + 2, sizeof(List)); buckets = calloc(bucket_mask + 1, sizeof(List));
    long *hints = malloc((n + 2) * sizeof(long));
    Clause *conflict = 0;
    while (fscanf(cnf, "%d", &lit) == 1) {
        if (lit) { lits[size++] = lit; continue; }
        Clause *found = take_in(lits, size);
        if (found && !conflict) conflict = found;
        size = 0;
    }
    while (!conflict && fscanf(proof, "%63s", word) == 1) {
        int deletes = !strcmp(word, "d");
        size = 0;
        if (!deletes && (lit = atoi(word))) lits[size++] = lit;
        if (deletes || lit) while (fscanf(proof, "%d", &lit) == 1 && lit) lits[size++] = lit;
        if (deletes) {
            List *bucket = &buckets[key_of(lits, size)];
            for (int i = 0; i < bucket->count; i++) {
                Clause *c = bucket->at[i];
                if (c->dead || !same(c, lits, size)) continue;
                int locked = size < 2;
                for (int k = 0; k < size; k++) if (reason[abs(c->lits[k])] == c) locked = 1;
                if (!locked) { c->dead = 1; bucket->at[i] = bucket->at[--bucket->count]; fprintf(out, "%ld d %ld 0\n", next_id - 1, c->id); }
                break;
            }
            continue;
        }
        int kept = trail_size, holds = 0;
        Clause *found = 0;
        for (int i = 0; i < size && !found && !holds; i++) {
            if (value_of(lits[i]) > 0) { holds = 1; found = reason[abs(lits[i])]; break; }
            if (!value_of(lits[i])) { assign(-lits[i], 0); found = propagate(); }
        }
        if (!found) found = propagate();
        if (!found) { fprintf(stderr, "lemma %ld doesn't follow by propagation\n", next_id); return 1; }
        fprintf(out, "%ld", next_id);
        for (int i = 0; i < size; i++) fprintf(out, " %d", lits[i]);
        fprintf(out, " 0");
        for (int i = 0; i < size; i++) if (value_of(lits[i]) < 0) given[abs(lits[i])] = 1;
        write_hints(found, hints);
        for (int i = 0; i < size; i++) given[abs(lits[i])] = 0;
        while (trail_size > kept) { int v = abs(trail[--trail_size]); value[v] = 0; reason[v] = 0; }
        head = kept;
        if (!size) { fclose(out); return 0; }
        conflict = take_in(lits, size);
    }
    if (!conflict) { fprintf(stderr, "no empty lemma\n"); return 1; }
    fprintf(out, "%ld 0", next_id);
    write_hints(conflict, hints);
    fclose(out);
    return 0;
}
