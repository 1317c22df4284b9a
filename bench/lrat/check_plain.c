/* A plain checker of LRAT refutations, to compare times with: check_plain f.cnf p.lrat
 *
 * It reads both files whole, keeps the literals of a clause in a block of its own, finds clauses by their number in a hash
 * table with open addressing, and marks false literals by a stamp. It checks the same rules L1 to L5 in the same order and
 * writes `refuted`, `rejected L3 line 2` or `unfinished 1`. Of the form of the texts it checks what it needs to be safe. */
#include <stdio.h>
#include <stdlib.h>
#include <string.h>

typedef struct { unsigned long id; int size; int *lits; } Entry;

static Entry *table;
static unsigned long mask, used;
static unsigned *marks, stamp;
static long marked;

static unsigned long slot_of(unsigned long id) { return (id * 0x9E3779B97F4A7C15UL >> 20) & mask; }
static Entry *find(unsigned long id) {
    for (unsigned long i = slot_of(id); table[i].id; i = (i + 1) & mask) if (table[i].id == id) return table[i].lits ? &table[i] : 0;
    return 0;
}
static void put(unsigned long id, const int *lits, int size) {
    if (2 * (used + 1) > mask) {
        Entry *old = table;
        unsigned long n = mask + 1;
        table = calloc(2 * n, sizeof *table);
        mask = 2 * n - 1;
        for (unsigned long k = 0; k < n; k++) if (old[k].id && old[k].lits) {
            unsigned long i = slot_of(old[k].id);
            while (table[i].id) i = (i + 1) & mask;
            table[i] = old[k];
        }
        free(old);
    }
    unsigned long i = slot_of(id);
    while (table[i].id) i = (i + 1) & mask;
    table[i].id = id; table[i].size = size; table[i].lits = malloc((size + 1) * sizeof(int));
    memcpy(table[i].lits, lits, size * sizeof(int));
    used++;
}
static long index_of(int lit) { return lit > 0 ? 2L * lit : -2L * lit + 1; }
static void cover(const int *lits, int size) {
    for (int i = 0; i < size; i++) {
        long need = 2L * abs(lits[i]) + 2;
        if (need > marked) { marks = realloc(marks, need * sizeof *marks); memset(marks + marked, 0, (need - marked) * sizeof *marks); marked = need; }
    }
}
static char *read_file(const char *name, long *size) {
    FILE *f = fopen(name, "rb");
    if (!f) { fprintf(stderr, "no %s\n", name); exit(2); }
    fseek(f, 0, SEEK_END); *size = ftell(f); rewind(f);
    char *text = malloc(*size + 1);
    if (fread(text, 1, *size, f) != (size_t)*size) exit(2);
    text[*size] = 0;
    fclose(f);
    return text;
}
static char *blanks(char *p) { while (*p == ' ' || *p == '\t' || *p == '\r') p++; return p; }
static long number(char **at) {
    char *p = blanks(*at);
    int minus = *p == '-';
    p += minus;
    if (*p < '0' || *p > '9') { fprintf(stderr, "no number\n"); exit(3); }
    long n = 0;
    while (*p >= '0' && *p <= '9') { if (n > 900000000000000000L) exit(3); n = n * 10 + (*p++ - '0'); }
    *at = p;
    return minus ? -n : n;
}
int main(int argc, char **argv) {
    if (argc != 3) return 2;
    long size, count = 0, room = 1024, lemmas = 0, line = 0;
    int *lits = malloc(room * sizeof(int));
    mask = 1023; table = calloc(mask + 1, sizeof *table);
    marks = calloc(2, sizeof *marks); marked = 2;
    char *text = read_file(argv[1], &size), *p = text, *end = text + size;
    while (p < end && (*p == 'c' || *p == '\n')) { p = memchr(p, '\n', end - p); if (!p) return 3; p++; }
    if (strncmp(p, "p cnf ", 6)) return 3;
    p += 6; number(&p);
    long clauses = number(&p);
    unsigned long top = 0;
    while ((long)top < clauses) {
        count = 0;
        for (;;) {
            while (*p == '\n' || *p == ' ' || *p == '\t' || *p == '\r') p++;
            long l = number(&p);
            if (!l) break;
            if (count + 1 > room) lits = realloc(lits, (room *= 2) * sizeof(int));
            lits[count++] = (int)l;
        }
        cover(lits, count);
        put(++top, lits, count);
    }
    free(text);
    text = read_file(argv[2], &size); p = text; end = text + size;
    while (p < end) {
        line++;
        if (*p == 'c') { p = memchr(p, '\n', end - p); if (!p) break; p++; continue; }
        p = blanks(p);
        if (*p == '\n') { p++; continue; }
        unsigned long id = number(&p);
        p = blanks(p);
        if (*p == 'd') {
            p++;
            for (;;) {
                unsigned long d = number(&p);
                if (!d) break;
                Entry *e = find(d);
                if (!e) { printf("rejected L5 line %ld\n", line); return 1; }
                free(e->lits); e->lits = 0;
            }
        } else {
            if (id <= top) { printf("rejected L1 line %ld\n", line); return 1; }
            count = 0;
            for (;;) {
                long l = number(&p);
                if (!l) break;
                if (count + 1 > room) lits = realloc(lits, (room *= 2) * sizeof(int));
                lits[count++] = (int)l;
            }
            cover(lits, count);
            stamp++;
            for (int i = 0; i < count; i++) marks[index_of(lits[i])] = stamp;
            int done = 0;
            for (;;) {
                unsigned long h = number(&p);
                if (!h) break;
                if (done) continue;
                Entry *e = find(h);
                if (!e) { printf("rejected L2 line %ld\n", line); return 1; }
                int unit = 0, many = 0;
                for (int i = 0; i < e->size; i++) if (marks[index_of(e->lits[i])] != stamp) { if (unit && unit != e->lits[i]) { many = 1; break; } unit = e->lits[i]; }
                if (many) { printf("rejected L3 line %ld\n", line); return 1; }
                if (!unit) done = 1;
                else if (marks[index_of(-unit)] == stamp) { printf("rejected L3 line %ld\n", line); return 1; }
                else marks[index_of(-unit)] = stamp;
            }
            if (!done) { printf("rejected L4 line %ld\n", line); return 1; }
            lemmas++;
            if (!count) { printf("refuted\n"); return 0; }
            put(id, lits, count);
            top = id;
        }
        p = blanks(p);
        if (*p == '\n') p++;
    }
    printf("unfinished %ld\n", lemmas);
    return 1;
}
