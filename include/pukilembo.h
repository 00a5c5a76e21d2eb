/* Pukilembo: the resultant of two polynomials in x and y modulo a prime, by elimination of x.
 *
 * Link with the archive that `./build` leaves in target/staticlib. No call allocates, and none keeps a pointer.
 *
 * Duties of the caller, which the kernel cannot check: a pointer with a length points to that many valid, aligned
 * numbers (any pointer that is not null will do for length 0), and a slice that a call writes to overlaps no other slice
 * of the same call. Everything else is checked: any number, any length and any record gets an answer.
 *
 * A call answers a number (PUKILEMBO_DONE or a refusal). A refused call writes to no slice, hands the job back as it came
 * and carries 0 in every other field, but for the number wanted with PUKILEMBO_WANTED.
 *
 * Polynomials: a table of degrees m in x and e in y has (m+1)(e+1) entries below p, the coefficient of x^i y^j at
 * i(e+1)+j. A row has 1 to 17 entries, lowest power first.
 *
 * This header follows the kernel: where a rule of docs/SCOPE.md changes, so do its names and comments.
 */
#ifndef PUKILEMBO_H
#define PUKILEMBO_H

#include <stddef.h>
#include <stdint.h>

#ifdef __cplusplus
extern "C" {
#endif

enum {
    PUKILEMBO_DONE = 0,         /* done, or the point was kept */
    PUKILEMBO_AGREES = 1,       /* surplus point agrees */
    PUKILEMBO_RANGE = 2,        /* p < 2 or p >= 2^31 */
    PUKILEMBO_COMPOSITE = 3,    /* p is not prime */
    PUKILEMBO_DEGREE = 4,       /* a declared degree above 16, or a row longer than 17 */
    PUKILEMBO_LENGTH = 5,       /* a table of the wrong length, or an empty row */
    PUKILEMBO_ENTRY = 6,        /* an entry >= p */
    PUKILEMBO_LEAD = 7,         /* a leading row, or a last entry, that is zero */
    PUKILEMBO_SCARCE = 8,       /* too few usable points below p */
    PUKILEMBO_ROOM = 9,         /* output or answer bytes too short */
    PUKILEMBO_POINT = 10,       /* point >= p */
    PUKILEMBO_UNUSABLE = 11,    /* point not usable */
    PUKILEMBO_REPEATED = 12,    /* point already kept */
    PUKILEMBO_DISAGREES = 13,   /* surplus point disagrees */
    PUKILEMBO_WANTED = 14,      /* read with too few points; `wanted` says how many more */
    PUKILEMBO_DIVISOR = 15,     /* divisor empty or ending in 0 */
    PUKILEMBO_UNSOUND = 16,     /* the record is not one that openings and offers leave */
    PUKILEMBO_LARGE = 17        /* plain determinant with m + n > 6 */
};

/* The job: whole numbers alone, passed and handed back by value; keep the one that the last call handed back.
 * The coefficient of x^i y^j of A stands at 17 i + j of a, and so for B; unused places are 0. */
typedef struct {
    uint32_t p, m, n;           /* modulus, degrees of A and B in x */
    uint32_t da, db;            /* largest powers of y that occur in A and B */
    uint32_t count;             /* points kept */
    uint32_t a[289], b[289];
    uint32_t points[513], values[513];
} pukilembo_job;

typedef struct { uint32_t number; pukilembo_job job; } pukilembo_job_answer;

/* degree: of the polynomial; zero: 1 where it is the zero polynomial (degree 0 then). */
typedef struct { uint32_t number, wanted, degree, zero; } pukilembo_read_answer;

typedef struct { uint32_t number, value, steps; } pukilembo_row_answer;
typedef struct { uint32_t number, value; } pukilembo_plain_answer;
typedef struct { uint32_t number, count; } pukilembo_division_answer;

/* side: 0 for the first row, 1 for the second; length: how many of its entries, up to the last nonzero one. */
typedef struct { uint32_t side; size_t length; } pukilembo_stretch;

/* Opens a job on A of degrees m, e and B of degrees n, f. A refused opening hands back the all-zero record. */
pukilembo_job_answer pukilembo_open(uint32_t p, uint32_t m, uint32_t e, uint32_t n, uint32_t f,
                                    const uint32_t *a, size_t a_length, const uint32_t *b, size_t b_length);

/* Offers one point. */
pukilembo_job_answer pukilembo_offer(pukilembo_job job, uint32_t point);

/* Offers points from left to right and writes an answer byte for each; bytes after those are not touched. */
pukilembo_job_answer pukilembo_lot(pukilembo_job job, const uint32_t *points, size_t points_length,
                                   uint8_t *answers, size_t answers_length);

/* Writes the D + 1 coefficients of the resultant, lowest power of y first; entries after those are not touched. */
pukilembo_read_answer pukilembo_read(pukilembo_job job, uint32_t *out, size_t out_length);

/* Opening, the smallest points that suffice, and the read, in one call. */
pukilembo_read_answer pukilembo_one_shot(uint32_t p, uint32_t m, uint32_t e, uint32_t n, uint32_t f,
                                         const uint32_t *a, size_t a_length, const uint32_t *b, size_t b_length,
                                         uint32_t *out, size_t out_length);

/* The resultant of two rows, with its coefficient steps. */
pukilembo_row_answer pukilembo_row_resultant(uint32_t p, const uint32_t *a, size_t a_length,
                                             const uint32_t *b, size_t b_length);

/* The same for m + n <= 6, by expansion along rows. */
pukilembo_plain_answer pukilembo_plain_determinant(uint32_t p, const uint32_t *a, size_t a_length,
                                                   const uint32_t *b, size_t b_length);

/* Divides the work row by b in place: the remainder first, the quotient after it, both lowest power first. */
pukilembo_division_answer pukilembo_divide(uint32_t p, uint32_t *row, size_t row_length,
                                           const uint32_t *b, size_t b_length);

/* Which of two rows has the lower true degree; on a tie the second. */
pukilembo_stretch pukilembo_divisor(const uint32_t *a, size_t a_length, const uint32_t *b, size_t b_length);

#ifdef __cplusplus
}
#endif

#endif
