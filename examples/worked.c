/* Opens x + y and x + 6y modulo 7, offers points one by one and in a lot, and reads the resultant: 5y. */
#include "pukilembo.h"

#include <stdio.h>

static void show_read(pukilembo_job job)
{
    uint32_t out[3];
    pukilembo_read_answer r = pukilembo_read(job, out, 3);
    if (r.number == PUKILEMBO_WANTED)
        printf("read: %u more points wanted\n", r.wanted);
    else if (r.number != PUKILEMBO_DONE)
        printf("read refused: %u\n", r.number);
    else if (r.zero)
        printf("read: the zero polynomial\n");
    else
        printf("read: degree %u, coefficients %u %u %u\n", r.degree, out[0], out[1], out[2]);
}

int main(void)
{
    const uint32_t a[4] = {0, 1, 1, 0}; /* y, then x */
    const uint32_t b[4] = {0, 6, 1, 0};
    pukilembo_job_answer opened = pukilembo_open(7, 1, 1, 1, 1, a, 4, b, 4);
    if (opened.number != PUKILEMBO_DONE) {
        printf("open refused: %u\n", opened.number);
        return 1;
    }
    pukilembo_job_answer one = pukilembo_offer(opened.job, 0);
    printf("offer 0: %u\n", one.number);
    show_read(one.job);

    const uint32_t points[4] = {1, 1, 3, 5};
    uint8_t answers[4];
    pukilembo_job_answer lot = pukilembo_lot(one.job, points, 4, answers, 4);
    printf("lot: %u, points %u %u %u %u\n", lot.number, answers[0], answers[1], answers[2], answers[3]);
    show_read(lot.job);

    pukilembo_job broken = lot.job;
    broken.values[0] ^= 1;
    printf("a record that was tampered with: %u\n", pukilembo_offer(broken, 2).number);
    return 0;
}
