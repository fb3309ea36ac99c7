/* What `pass` does of a text of circuits, in plain C: reads it, turns circuits away, computes both arrival times of every
 * signal, and prints the words with margins and paths.
 *     pass-reference answer FILE         answers the circuits of a file
 *     pass-reference circuit GATES       writes a circuit with so many gates
 *     pass-reference time RUNS PROGRAM ARGUMENT..   the least time that a program takes, in milliseconds */
#include <inttypes.h>
#include <stdint.h>
#include <stdio.h>
#include <stdlib.h>
#include <string.h>
#include <sys/wait.h>
#include <time.h>
#include <unistd.h>

enum { MOST_REGISTERS = 1024, MOST_GATES = 16384, MOST = MOST_REGISTERS + MOST_GATES, LIMIT = 1000000 };

static const char *const names[16] = {"never", "nor", "first-only", "not-second", "second-only", "not-first", "xor", "nand",
                                      "and", "xnor", "first", "first-or-not-second", "second", "second-or-not-first", "or",
                                      "always"};

struct circuit {
    uint32_t gates[MOST_GATES + 1][7], registers[MOST_REGISTERS + 1][3], times[5];
    size_t m, n, k;
    char name[256];
};

static void fault(size_t line, const char *what) {
    fprintf(stderr, "line %zu: %s\n", line, what);
    exit(1);
}

static int is_blank(char c) { return c == ' ' || c == '\t' || c == '\r'; }

/* The next word of a line that ends at `end`, in place. */
static char *word(char **at, char *end, size_t *length) {
    while (*at < end && is_blank(**at)) ++*at;
    char *from = *at;
    while (*at < end && !is_blank(**at)) ++*at;
    *length = (size_t)(*at - from);
    return *length ? from : NULL;
}

static int same(const char *w, size_t length, const char *name) { return strlen(name) == length && !memcmp(w, name, length); }

static uint32_t value(const char *w, size_t length, int table, size_t line) {
    uint64_t n = 0;
    for (size_t i = 0; i < length; i++) {
        if (w[i] < '0' || w[i] > '9') {
            for (uint32_t t = 0; table && t < 16; t++)
                if (same(w, length, names[t])) return t;
            fault(line, "expected a number");
        }
        n = n * 10 + (uint64_t)(w[i] - '0');
        if (n > UINT32_MAX) n = (uint64_t)UINT32_MAX + 1;
    }
    if (n > UINT32_MAX) fault(line, "expected a number below 4294967296");
    return (uint32_t)n;
}

static void row(char *at, char *end, uint32_t *to, int count, int table, size_t line) {
    size_t length;
    for (int i = 0; i < count; i++) {
        char *w = word(&at, end, &length);
        if (!w) fault(line, "too few numbers");
        to[i] = value(w, length, i == table, line);
    }
    if (word(&at, end, &length)) fault(line, "too many numbers");
}

static int whole(const struct circuit *c) {
    if (c->k != 1 || c->n < 1 || c->n > MOST_REGISTERS || c->m > MOST_GATES) return 0;
    for (size_t k = 0; k < c->m; k++) {
        const uint32_t *g = c->gates[k];
        for (int i = 0; i < 7; i++)
            if (g[i] > LIMIT) return 0;
        if (g[0] >= c->n + k || g[1] >= c->n + k || g[2] > 15 || g[3] > g[4] || g[5] > g[6]) return 0;
    }
    for (size_t r = 0; r < c->n; r++) {
        const uint32_t *x = c->registers[r];
        if (x[0] >= c->n + c->m || x[1] > x[2] || x[2] > LIMIT) return 0;
    }
    for (int i = 0; i < 5; i++)
        if (c->times[i] > LIMIT) return 0;
    return c->times[1] <= c->times[2];
}

static void path(const struct circuit *c, const uint64_t *at, size_t signal, int late) {
    uint32_t *back = malloc((c->m + 1) * sizeof *back);
    size_t length = 0;
    while (signal >= c->n) {
        const uint32_t *g = c->gates[signal - c->n];
        uint64_t a = at[g[0]] + g[3 + late], b = at[g[1]] + g[5 + late];
        back[length++] = (uint32_t)signal;
        signal = (late ? b > a : b < a) ? g[1] : g[0];
    }
    for (size_t i = length; i > 0; i--) printf(i == length ? " by %" PRIu32 : ", %" PRIu32, back[i - 1]);
    free(back);
}

static void answer(const struct circuit *c) {
    static uint64_t latest[MOST], earliest[MOST];
    if (*c->name) printf("%s: ", c->name);
    if (!whole(c)) {
        puts("turned away");
        return;
    }
    for (size_t r = 0; r < c->n; r++) {
        latest[r] = (uint64_t)c->registers[r][2] + c->times[2];
        earliest[r] = (uint64_t)c->registers[r][1] + c->times[1];
    }
    for (size_t k = 0; k < c->m; k++) {
        const uint32_t *g = c->gates[k];
        uint64_t a = latest[g[0]] + g[4], b = latest[g[1]] + g[6], d = earliest[g[0]] + g[3], e = earliest[g[1]] + g[5];
        latest[c->n + k] = a > b ? a : b;
        earliest[c->n + k] = d < e ? d : e;
    }
    int64_t setup = INT64_MAX, hold = INT64_MAX;
    for (int late = 1; late >= 0; late--)
        for (size_t r = 0; r < c->n; r++) {
            const uint32_t *x = c->registers[r];
            uint64_t a = late ? latest[x[0]] + c->times[3] : earliest[x[0]];
            uint64_t b = late ? (uint64_t)c->times[0] + x[1] : (uint64_t)x[2] + c->times[4];
            if (late ? a > b : a <= b) {
                printf("too %s at %zu", late ? "late" : "early", r);
                path(c, late ? latest : earliest, x[0], late);
                printf(": %" PRIu64 " and %" PRIu64 "\n", a, b);
                return;
            }
            int64_t margin = late ? (int64_t)(b - a) : (int64_t)(a - b) - 1;
            if (late && margin < setup) setup = margin;
            if (!late && margin < hold) hold = margin;
        }
    printf("passed, margin %" PRId64 " and %" PRId64 "\n", setup, hold);
}

static void (*answer_circuit)(const struct circuit *) = answer;

static void answer_file(const char *name) {
    static struct circuit c;
    FILE *f = fopen(name, "rb");
    if (!f || fseek(f, 0, SEEK_END)) exit(1);
    size_t size = (size_t)ftell(f), line = 0, length;
    rewind(f);
    char *text = malloc(size + 1);
    if (fread(text, 1, size, f) != size) exit(1);
    fclose(f);
    int inside = 0;
    for (char *at = text, *end = text + size; at < end;) {
        char *next = memchr(at, '\n', (size_t)(end - at)), *stop = next ? next : end;
        char *comment = memchr(at, '#', (size_t)(stop - at)), *from = at;
        line++;
        at = next ? next + 1 : end;
        if (comment) stop = comment;
        char *w = word(&from, stop, &length);
        if (!w) continue;
        if (!inside) {
            if (!same(w, length, "circuit")) fault(line, "expected a circuit");
            char *title = word(&from, stop, &length);
            memset(&c, 0, sizeof c);
            if (title && length < sizeof c.name) memcpy(c.name, title, length);
            inside = 1;
        } else if (same(w, length, "gate") && c.m <= MOST_GATES) {
            row(from, stop, c.gates[c.m++], 7, 2, line);
        } else if (same(w, length, "register") && c.n <= MOST_REGISTERS) {
            row(from, stop, c.registers[c.n++], 3, -1, line);
        } else if (same(w, length, "times")) {
            row(from, stop, c.times, 5, -1, line);
            c.k++;
        } else if (same(w, length, "end")) {
            answer_circuit(&c);
            inside = 0;
        } else {
            fault(line, "expected a statement");
        }
    }
    if (inside) fault(line, "expected `end`");
    free(text);
}

static void write_circuit(uint32_t gates) {
    uint64_t x = 1;
    printf("circuit large\ntimes 1000000 2 4 3 1\n");
    for (uint32_t r = 0; r < MOST_REGISTERS; r++) printf("register %" PRIu32 " 0 1\n", gates ? MOST_REGISTERS + r % gates : r);
    for (uint32_t k = 0; k < gates; k++) {
        uint32_t in[2];
        for (int i = 0; i < 2; i++) {
            x = x * 6364136223846793005u + 1442695040888963407u;
            in[i] = (uint32_t)((x >> 33) % (MOST_REGISTERS + k));
        }
        printf("gate %" PRIu32 " %" PRIu32 " %s 300 800 250 900\n", in[0], in[1], names[x >> 60]);
    }
    puts("end");
}

static double now(void) {
    struct timespec t;
    clock_gettime(CLOCK_MONOTONIC, &t);
    return (double)t.tv_sec * 1e3 + (double)t.tv_nsec / 1e6;
}

static void time_program(int runs, char **command) {
    double least = 1e9;
    for (int i = 0; i < runs; i++) {
        double from = now();
        pid_t child = fork();
        if (child == 0) {
            if (!freopen("/dev/null", "w", stdout)) _exit(1);
            execv(command[0], command);
            _exit(1);
        }
        int status;
        if (waitpid(child, &status, 0) != child || !WIFEXITED(status)) exit(1);
        double took = now() - from;
        if (took < least) least = took;
    }
    printf("%.3f\n", least);
}

int main(int argc, char **argv) {
    if (argc == 3 && !strcmp(argv[1], "answer")) answer_file(argv[2]);
    else if (argc == 3 && !strcmp(argv[1], "circuit")) write_circuit((uint32_t)atoi(argv[2]));
    else if (argc >= 4 && !strcmp(argv[1], "time")) time_program(atoi(argv[2]), argv + 3);
    else return 1;
    return 0;
}
