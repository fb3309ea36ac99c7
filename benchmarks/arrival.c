/* Arrival times of a circuit of the largest size: the proved library beside a plain C reference, in one run.
 * The reference is one pass over the gates that computes both times of each. */
#include <inttypes.h>
#include <stdint.h>
#include <stdio.h>
#include <stdlib.h>
#include <string.h>
#include <time.h>

uint32_t muleminute_fill(const uint32_t *gates, size_t gates_len, const uint32_t *registers, size_t registers_len,
                         const uint32_t *times, size_t times_len, uint64_t *latest, size_t latest_len,
                         uint64_t *earliest, size_t earliest_len, uint32_t turns);

static void reference(const uint32_t *restrict gates, size_t m, const uint32_t *restrict registers, size_t n,
                      const uint32_t *restrict times, uint64_t *restrict latest, uint64_t *restrict earliest) {
    for (size_t r = 0; r < n; r++) {
        latest[r] = (uint64_t)registers[3 * r + 2] + times[2];
        earliest[r] = (uint64_t)registers[3 * r + 1] + times[1];
    }
    for (size_t k = 0; k < m; k++) {
        const uint32_t *g = gates + 7 * k;
        uint64_t a = latest[g[0]] + g[4], b = latest[g[1]] + g[6];
        uint64_t c = earliest[g[0]] + g[3], d = earliest[g[1]] + g[5];
        latest[n + k] = a > b ? a : b;
        earliest[n + k] = c < d ? c : d;
    }
}

static double now(void) {
    struct timespec t;
    clock_gettime(CLOCK_MONOTONIC, &t);
    return t.tv_sec * 1e9 + t.tv_nsec;
}

int main(int argc, char **argv) {
    size_t m = argc > 1 ? strtoul(argv[1], NULL, 10) : 16384, n = 1024;
    const uint32_t turns = 2000;
    const int rounds = 9;
    uint32_t *gates = malloc(7 * m * sizeof *gates), *registers = malloc(3 * n * sizeof *registers);
    uint32_t times[5] = {20000, 200, 400, 300, 100};
    uint64_t *latest = calloc(n + m, 8), *earliest = calloc(n + m, 8), *late = calloc(n + m, 8), *early = calloc(n + m, 8);
    uint64_t x = 88172645463325252u;
    for (size_t k = 0; k < m; k++) {
        uint32_t *g = gates + 7 * k;
        for (int i = 0; i < 7; i++) {
            x ^= x << 13, x ^= x >> 7, x ^= x << 17;
            g[i] = i < 2 ? x % (n + k) : i == 2 ? x % 16 : 100 + x % 100;
        }
        g[4] += g[3], g[6] += g[5];
    }
    for (size_t r = 0; r < n; r++) registers[3 * r] = r % (n + m), registers[3 * r + 1] = r % 50, registers[3 * r + 2] = 50 + r % 50;
    double best = 1e300, best_reference = 1e300;
    for (int i = 0; i < rounds; i++) {
        double t = now();
        uint32_t refused = muleminute_fill(gates, 7 * m, registers, 3 * n, times, 5, latest, n + m, earliest, n + m, turns);
        t = (now() - t) / turns;
        if (refused) return printf("turned away by %" PRIu32 "\n", refused), 1;
        if (t < best) best = t;
        t = now();
        for (uint32_t j = 0; j < turns; j++) {
            reference(gates, m, registers, n, times, late, early);
            __asm__ volatile("" ::: "memory");
        }
        t = (now() - t) / turns;
        if (t < best_reference) best_reference = t;
    }
    if (memcmp(latest, late, 8 * (n + m)) || memcmp(earliest, early, 8 * (n + m))) return puts("the times differ"), 1;
    printf("%zu gates, %zu registers: muleminute %.2f ns a gate, C %.2f ns a gate, ratio %.2f\n", m, n, best / m, best_reference / m, best / best_reference);
    return 0;
}
