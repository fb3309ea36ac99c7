/* What `pass --worst K` does of a text of circuits, in plain C: what pass.c does, and the K worst paths by the same way: for each
 * signal a row of its first K paths, merged along the circuit.
 *     worst-reference answer K late|early FILE
 *     worst-reference peak PROGRAM ARGUMENT..   the most memory that a program takes, in KB
 * and the other commands of pass.c. */
#define main pass_main
#include "pass.c"
#undef main
#include <sys/resource.h>

struct entry {
    uint64_t time;
    uint32_t by, rank;
};

struct row {
    struct entry *entries;
    size_t length;
};

static size_t most;
static int late;

static int is_second(uint64_t one, uint64_t two) { return late ? one < two : two < one; }

/* The first of two rows, the first later by d and named 0, the second later by e and named 1. */
static size_t merge(struct entry *out, struct row one, uint32_t d, struct row two, uint32_t e) {
    size_t n = 0, i = 0, j = 0;
    while (n < most && (i < one.length || j < two.length)) {
        int second = i == one.length || (j < two.length && is_second(one.entries[i].time + d, two.entries[j].time + e));
        if (second) {
            out[n++] = (struct entry){two.entries[j].time + e, 1, (uint32_t)j};
            j++;
        } else {
            out[n++] = (struct entry){one.entries[i].time + d, 0, (uint32_t)i};
            i++;
        }
    }
    return n;
}

/* The first of the paths that end at registers before r, and of those that end at r. */
static size_t merge_end(struct entry *out, const struct entry *ends, size_t count, struct row row, uint32_t r, uint64_t shift) {
    size_t n = 0, i = 0, j = 0;
    while (n < most && (i < count || j < row.length)) {
        int second = i == count || (j < row.length && is_second(ends[i].time, row.entries[j].time + shift));
        if (second) {
            out[n++] = (struct entry){row.entries[j].time + shift, r, (uint32_t)j};
            j++;
        } else {
            out[n++] = ends[i++];
        }
    }
    return n;
}

static int64_t required(const struct circuit *c, size_t r) {
    const uint32_t *x = c->registers[r];
    return late ? (int64_t)c->times[0] + x[1] - c->times[3] : (int64_t)x[2] + c->times[4] + 1;
}

static void print_path(const struct circuit *c, const struct row *rows, size_t rank, struct entry e) {
    uint32_t *back = malloc((c->m + 1) * sizeof *back);
    size_t length = 0, signal = c->registers[e.by][0], at = e.rank;
    uint64_t arrival = rows[signal].entries[at].time;
    while (signal >= c->n) {
        struct entry x = rows[signal].entries[at];
        back[length++] = (uint32_t)signal;
        signal = c->gates[signal - c->n][x.by];
        at = x.rank;
    }
    int64_t needed = required(c, e.by), slack = late ? needed - (int64_t)arrival : (int64_t)arrival - needed;
    printf("  %4zu  %12" PRId64 "  %8" PRIu32 "  %12" PRIu64 "  %12" PRId64 "  %zu", rank + 1, slack, e.by, arrival, needed, signal);
    for (size_t i = length; i > 0; i--) printf(", %" PRIu32, back[i - 1]);
    putchar('\n');
    free(back);
}

/* Needs whole circuits. */
static void answer_worst(const struct circuit *c) {
    answer(c);
    size_t signals = c->n + c->m;
    struct row *rows = malloc(signals * sizeof *rows);
    struct entry *arena = malloc(signals * most * sizeof *arena), *next = arena;
    for (size_t r = 0; r < c->n; r++) {
        const uint32_t *x = c->registers[r];
        *next = (struct entry){late ? (uint64_t)x[2] + c->times[2] : (uint64_t)x[1] + c->times[1], 0, 0};
        rows[r] = (struct row){next++, 1};
    }
    for (size_t k = 0; k < c->m; k++) {
        const uint32_t *g = c->gates[k];
        size_t n = merge(next, rows[g[0]], g[3 + late], rows[g[1]], g[5 + late]);
        rows[c->n + k] = (struct row){next, n};
        next += n;
    }
    struct entry *ends = malloc(most * sizeof *ends), *other = malloc(most * sizeof *other);
    size_t count = 0, violations = 0, worst = 0;
    int64_t total = 0, least = INT64_MAX;
    for (size_t r = 0; r < c->n; r++) {
        const uint32_t *x = c->registers[r];
        count = merge_end(other, ends, count, rows[x[0]], (uint32_t)r, LIMIT - x[late ? 1 : 2]);
        struct entry *swap = ends;
        ends = other;
        other = swap;
        int64_t time = (int64_t)rows[x[0]].entries[0].time, slack = late ? required(c, r) - time : time - required(c, r);
        if (slack < 0) violations++, total += slack;
        if (slack < least) least = slack, worst = r;
    }
    (void)worst;
    printf("  worst paths, %s\n  rank         slack  register       arrival      required  path\n", late ? "setup" : "hold");
    for (size_t i = 0; i < count; i++) print_path(c, rows, i, ends[i]);
    printf("  negative slack at %zu of %zu registers, worst slack %" PRId64 ", total negative slack %" PRId64 "\n\n", violations, c->n, least, total);
    free(ends);
    free(other);
    free(arena);
    free(rows);
}

static void peak(char **command) {
    pid_t child = fork();
    if (child == 0) {
        if (!freopen("/dev/null", "w", stdout)) _exit(1);
        execv(command[0], command);
        _exit(1);
    }
    int status;
    struct rusage used;
    if (wait4(child, &status, 0, &used) != child || !WIFEXITED(status)) exit(1);
    printf("%ld\n", used.ru_maxrss);
}

int main(int argc, char **argv) {
    if (argc == 5 && !strcmp(argv[1], "answer")) {
        most = (size_t)atoi(argv[2]);
        late = !strcmp(argv[3], "late");
        answer_circuit = answer_worst;
        answer_file(argv[4]);
        return 0;
    }
    if (argc >= 3 && !strcmp(argv[1], "peak")) {
        peak(argv + 2);
        return 0;
    }
    return pass_main(argc, argv);
}
