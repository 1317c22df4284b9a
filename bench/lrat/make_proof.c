/* Makes a set of clauses that cannot be satisfied, and a refutation of it in the LRAT format.
 *
 *   make_proof VARIABLES CLAUSES SEED f.cnf p.lrat
 *
 * The clauses are random ones of three literals. A small search with watched literals learns a clause at each conflict
 * (first unique implication point), and writes it with its hints; from time to time it deletes half of what it learned.
 * Where the clauses can be satisfied it says so and ends with status 1: take more clauses or another seed. */
#include <stdio.h>
#include <stdlib.h>
#include <string.h>

typedef struct { long id; int size, learnt, *lits; double activity; } Clause;
typedef struct { int count, room; Clause **at; } List;

static int n, *trail, trail_size, head, *limits, levels;
static signed char *value, *phase, *seen;
static int *level;
static Clause **reason;
static double *score, bump = 1, clause_bump = 1;
static long *unit_id, next_id;
static List *watches, learnts;
static FILE *out;
static int heap_size, *heap, *place;

static int index_of(int lit) { return lit > 0 ? 2 * lit : -2 * lit + 1; }
static int value_of(int lit) { int v = value[abs(lit)]; return lit > 0 ? v : -v; }
static void add(List *l, Clause *c) {
    if (l->count == l->room) { l->room = l->room ? 2 * l->room : 4; l->at = realloc(l->at, l->room * sizeof *l->at); }
    l->at[l->count++] = c;
}
static unsigned long long state;
static unsigned draw(unsigned below) {
    state ^= state << 13; state ^= state >> 7; state ^= state << 17;
    return (unsigned)(state >> 33) % below;
}
static void up(int i) {
    int v = heap[i];
    while (i && score[heap[(i - 1) / 2]] < score[v]) { heap[i] = heap[(i - 1) / 2]; place[heap[i]] = i; i = (i - 1) / 2; }
    heap[i] = v; place[v] = i;
}
static void down(int i) {
    int v = heap[i];
    for (;;) {
        int c = 2 * i + 1;
        if (c >= heap_size) break;
        if (c + 1 < heap_size && score[heap[c + 1]] > score[heap[c]]) c++;
        if (score[heap[c]] <= score[v]) break;
        heap[i] = heap[c]; place[heap[i]] = i; i = c;
    }
    heap[i] = v; place[v] = i;
}
static void insert(int v) { if (place[v] < 0) { heap[heap_size] = v; place[v] = heap_size; up(heap_size++); } }
static void raise_score(int v) {
    if ((score[v] += bump) > 1e100) { for (int i = 1; i <= n; i++) score[i] *= 1e-100; bump *= 1e-100; }
    if (place[v] >= 0) up(place[v]);
}
static void assign(int lit, Clause *why) {
    int v = abs(lit);
    value[v] = lit > 0 ? 1 : -1; level[v] = levels; reason[v] = why; trail[trail_size++] = lit;
    if (!levels && why) {                      /* a literal that always holds becomes a lemma of its own */
        if (why->size == 1) { unit_id[v] = why->id; return; }
        fprintf(out, "%ld %d 0", next_id, lit);
        for (int i = 0; i < why->size; i++) if (abs(why->lits[i]) != v) fprintf(out, " %ld", unit_id[abs(why->lits[i])]);
        fprintf(out, " %ld 0\n", why->id);
        unit_id[v] = next_id++;
    }
}
static Clause *propagate(void) {
    while (head < trail_size) {
        int lit = -trail[head++];
        List *ws = &watches[index_of(lit)];
        int kept = 0;
        for (int i = 0; i < ws->count; i++) {
            Clause *c = ws->at[i];
            if (c->lits[0] == lit) { c->lits[0] = c->lits[1]; c->lits[1] = lit; }
            if (value_of(c->lits[0]) > 0) { ws->at[kept++] = c; continue; }
            int k = 2;
            while (k < c->size && value_of(c->lits[k]) < 0) k++;
            if (k < c->size) { c->lits[1] = c->lits[k]; c->lits[k] = lit; add(&watches[index_of(c->lits[1])], c); continue; }
            ws->at[kept++] = c;
            if (value_of(c->lits[0]) < 0) {
                while (++i < ws->count) ws->at[kept++] = ws->at[i];
                ws->count = kept;
                return c;
            }
            assign(c->lits[0], c);
        }
        ws->count = kept;
    }
    return 0;
}
static void undo(int to) {
    if (levels <= to) return;
    while (trail_size > limits[to]) { int v = abs(trail[--trail_size]); phase[v] = value[v]; value[v] = 0; insert(v); }
    head = trail_size; levels = to;
}
static void attach(Clause *c) { if (c->size > 1) { add(&watches[index_of(c->lits[0])], c); add(&watches[index_of(c->lits[1])], c); } }
static Clause *make(const int *lits, int size, long id, int learnt) {
    Clause *c = malloc(sizeof *c);
    c->id = id; c->size = size; c->learnt = learnt; c->activity = clause_bump;
    c->lits = malloc((size ? size : 1) * sizeof(int)); memcpy(c->lits, lits, size * sizeof(int));
    return c;
}
static void hint_units(const Clause *c, long *hints, int *count) {
    for (int i = 0; i < c->size; i++) { int v = abs(c->lits[i]); if (!level[v] && !seen[v]) { seen[v] = 1; hints[(*count)++] = unit_id[v]; } }
}
/* learns from a conflict; answers the level to go back to, or -1 where the clauses are refuted */
static int learn(Clause *conflict, int *lits, int *size, long *hints, int *count, long *chain) {
    int open = 0, at = trail_size, steps = 0, back = 0;
    Clause *c = conflict;
    *size = 1; *count = 0;
    for (;;) {
        if (c->learnt && (c->activity += clause_bump) > 1e20) { for (int i = 0; i < learnts.count; i++) learnts.at[i]->activity *= 1e-20; clause_bump *= 1e-20; }
        hint_units(c, hints, count);
        chain[steps++] = c->id;
        for (int i = 0; i < c->size; i++) {
            int v = abs(c->lits[i]);
            if (seen[v] || !level[v]) continue;
            seen[v] = 1; raise_score(v);
            if (level[v] == levels) open++; else { lits[(*size)++] = c->lits[i]; if (level[v] > back) back = level[v]; }
        }
        if (!levels) break;
        while (!seen[abs(trail[--at])] || level[abs(trail[at])] != levels) ;
        if (!--open) break;
        c = reason[abs(trail[at])];
    }
    if (levels) lits[0] = -trail[at]; else *size = 0;
    for (int i = steps; i--; ) hints[(*count)++] = chain[i];
    memset(seen, 0, n + 1);
    return levels ? back : -1;
}
static int cmp(const void *a, const void *b) { double x = (*(Clause *const *)a)->activity, y = (*(Clause *const *)b)->activity; return x < y ? -1 : x > y; }
static void reduce(void) {
    qsort(learnts.at, learnts.count, sizeof *learnts.at, cmp);
    int kept = 0, any = 0;
    for (int i = 0; i < learnts.count; i++) {
        Clause *c = learnts.at[i];
        int locked = 0;
        for (int k = 0; k < 2 && k < c->size; k++) if (reason[abs(c->lits[k])] == c && value[abs(c->lits[k])]) locked = 1;
        if (i < learnts.count / 2 && c->size > 2 && !locked) {
            fprintf(out, any ? " %ld" : "%ld d %ld", any ? c->id : next_id - 1, c->id); any = 1;
            c->learnt = 2;
        } else learnts.at[kept++] = c;
    }
    if (any) fprintf(out, " 0\n");
    for (int l = 2; l <= 2 * n + 1; l++) { int k = 0; for (int i = 0; i < watches[l].count; i++) if (watches[l].at[i]->learnt != 2) watches[l].at[k++] = watches[l].at[i]; watches[l].count = k; }
    learnts.count = kept;
}
int main(int argc, char **argv) {
    if (argc != 6) { fprintf(stderr, "usage: make_proof VARIABLES CLAUSES SEED f.cnf p.lrat\n"); return 2; }
    n = atoi(argv[1]);
    int m = atoi(argv[2]);
    state = 88172645463325252ULL + 7919ULL * strtoull(argv[3], 0, 10);
    FILE *cnf = fopen(argv[4], "w");
    out = fopen(argv[5], "w");
    if (!cnf || !out) return 2;
    trail = calloc(n + 1, sizeof(int)); limits = calloc(n + 1, sizeof(int)); value = calloc(n + 1, 1); phase = calloc(n + 1, 1); seen = calloc(n + 1, 1);
    level = calloc(n + 1, sizeof(int)); reason = calloc(n + 1, sizeof(Clause *)); score = calloc(n + 1, sizeof(double)); unit_id = calloc(n + 1, sizeof(long));
    watches = calloc(2 * n + 2, sizeof(List)); heap = calloc(n + 1, sizeof(int)); place = calloc(n + 1, sizeof(int));
    memset(place, -1, (n + 1) * sizeof(int));
    for (int v = 1; v <= n; v++) insert(v);
    int *lits = malloc((n + 1) * sizeof(int)), size, count;
    long *hints = malloc((2 * n + 4) * sizeof(long)), *chain = malloc((n + 2) * sizeof(long));
    fprintf(cnf, "c random clauses of three literals, seed %s\np cnf %d %d\n", argv[3], n, m);
    for (int i = 0; i < m; i++) {
        int a = 1 + draw(n), b, c;
        do b = 1 + draw(n); while (b == a);
        do c = 1 + draw(n); while (c == a || c == b);
        int three[3] = { draw(2) ? a : -a, draw(2) ? b : -b, draw(2) ? c : -c };
        fprintf(cnf, "%d %d %d 0\n", three[0], three[1], three[2]);
        attach(make(three, 3, i + 1, 0));
    }
    fclose(cnf);
    next_id = m + 1;
    long conflicts = 0, until = 100, limit = 4000;
    for (;;) {
        Clause *conflict = propagate();
        if (conflict) {
            conflicts++;
            int back = learn(conflict, lits, &size, hints, &count, chain);
            fprintf(out, "%ld", next_id);
            for (int i = 0; i < size; i++) fprintf(out, " %d", lits[i]);
            fprintf(out, " 0");
            for (int i = 0; i < count; i++) fprintf(out, " %ld", hints[i]);
            fprintf(out, " 0\n");
            if (back < 0) { fclose(out); fprintf(stderr, "%ld conflicts\n", conflicts); return 0; }
            undo(back);
            for (int i = 2; i < size; i++) if (level[abs(lits[i])] > level[abs(lits[1])]) { int t = lits[1]; lits[1] = lits[i]; lits[i] = t; }
            Clause *c = make(lits, size, next_id++, 1);
            attach(c);
            if (size > 1) add(&learnts, c);
            assign(lits[0], c);
            bump *= 1.0526; clause_bump *= 1.001;
            if (conflicts >= until) { until = conflicts + 100 + conflicts / 50; undo(0); }
            if (learnts.count > limit) { limit += 500; reduce(); }
            continue;
        }
        int v = 0;
        while (heap_size) { v = heap[0]; place[v] = -1; if (--heap_size) { heap[0] = heap[heap_size]; place[heap[0]] = 0; down(0); } if (!value[v]) break; v = 0; }
        if (!v) { fprintf(stderr, "these clauses can be satisfied\n"); return 1; }
        limits[levels++] = trail_size;
        assign(phase[v] > 0 ? v : -v, 0);
    }
}
