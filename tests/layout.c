/* Finds every field of the header's structs where the library puts it: a job is opened and fed with numbers that are all
 * different, and each is looked for under its name. */
#include "../include/pukilembo.h"

#include <stdio.h>
#include <string.h>

static int failed = 0;
static int passed = 0;

static void same(const char *what, unsigned long got, unsigned long want)
{
    if (got == want) {
        passed++;
        return;
    }
    failed++;
    printf("layout: %s is %lu, not %lu\n", what, got, want);
}

int main(void)
{
    enum { P = 10007, M = 1, E = 2, N = 2, F = 3 };
    uint32_t a[(M + 1) * (E + 1)], b[(N + 1) * (F + 1)];
    for (int k = 0; k < (M + 1) * (E + 1); k++)
        a[k] = 100 + k;
    for (int k = 0; k < (N + 1) * (F + 1); k++)
        b[k] = 200 + k;
    b[3] = b[7] = b[11] = 0; /* the declared degree of B in y is larger than the real one */
    pukilembo_job_answer r = pukilembo_open(P, M, E, N, F, a, sizeof a / 4, b, sizeof b / 4);
    same("number of the opening", r.number, 0);
    same("p", r.job.p, P);
    same("m", r.job.m, M);
    same("n", r.job.n, N);
    same("da", r.job.da, 2);
    same("db", r.job.db, 2);
    same("count", r.job.count, 0);
    for (int i = 0; i < 17; i++)
        for (int j = 0; j < 17; j++) {
            same("a", r.job.a[17 * i + j], i <= M && j <= E ? a[i * (E + 1) + j] : 0);
            same("b", r.job.b[17 * i + j], i <= N && j <= F ? b[i * (F + 1) + j] : 0);
        }
    uint32_t points[3] = {11, 7, 9};
    uint8_t bytes[3];
    r = pukilembo_lot(r.job, points, 3, bytes, 3);
    same("count after three points", r.job.count, 3);
    for (int k = 0; k < 513; k++)
        same("points", r.job.points[k], k < 3 ? points[k] : 0);
    for (int k = 0; k < 513; k++) {
        unsigned long want = 0;
        if (k < 3) {
            uint32_t u[M + 1], w[N + 1];
            for (int i = 0; i <= M; i++) {
                unsigned long s = 0;
                for (int j = E; j >= 0; j--)
                    s = (s * points[k] + a[i * (E + 1) + j]) % P;
                u[i] = s;
            }
            for (int i = 0; i <= N; i++) {
                unsigned long s = 0;
                for (int j = F; j >= 0; j--)
                    s = (s * points[k] + b[i * (F + 1) + j]) % P;
                w[i] = s;
            }
            pukilembo_row_answer row = pukilembo_row_resultant(P, u, M + 1, w, N + 1);
            same("number of a row", row.number, 0);
            want = row.value;
        }
        same("values", r.job.values[k], want);
    }
    uint32_t out[16];
    pukilembo_read_answer read = pukilembo_read(r.job, out, 16);
    same("number of an early read", read.number, 14);
    same("wanted", read.wanted, 2 * 2 + 1 * 2 + 1 - 3);
    read = pukilembo_one_shot(P, M, E, N, F, a, sizeof a / 4, b, sizeof b / 4, out, 16);
    same("number of the one-shot", read.number, 0);
    same("degree", out[read.degree] != 0, 1);
    same("zero", read.zero, 0);

    pukilembo_job forged;
    uint32_t words[sizeof forged / 4];
    for (size_t k = 0; k < sizeof forged / 4; k++)
        words[k] = 0x10000 + k;
    memcpy(&forged, words, sizeof forged);
    r = pukilembo_offer(forged, 3);
    same("number of a forged record", r.number, 16);
    same("the forged record comes back", memcmp(&r.job, words, sizeof forged), 0);
    same("bytes of the record", sizeof(pukilembo_job), 6440);
    same("the record is small", sizeof(pukilembo_job) <= 8192, 1);

    uint32_t x[4] = {1, 2, 0, 0}, y[3] = {5, 0, 4};
    pukilembo_stretch s = pukilembo_divisor(x, 4, y, 3);
    same("side", s.side, 0);
    same("length", s.length, 2);
    pukilembo_plain_answer plain = pukilembo_plain_determinant(7, x, 2, y, 3);
    pukilembo_row_answer row = pukilembo_row_resultant(7, x, 2, y, 3);
    same("number of the plain determinant", plain.number, 0);
    same("value", plain.value, row.value);
    same("steps", row.steps, 2);
    uint32_t work[3] = {5, 0, 4};
    pukilembo_division_answer division = pukilembo_divide(7, work, 3, x, 2);
    same("number of the division", division.number, 0);
    same("count", division.count, 2);
    printf("%d passed, %d failed\n", passed, failed);
    return failed != 0;
}
