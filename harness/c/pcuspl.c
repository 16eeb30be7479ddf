/* 004's programs in C: PCUSPL and PTRI after the listings in its appendix, statement by statement, with a third coordinate (004 has
 * X and Y, a course has north, east and up). Indices are 004's less one. SEVAL is not listed in 004, which takes it from
 * Forsythe, Malcolm and Moler, p. 79: the interval of the last call is tried first, then a binary search, then Horner's rule. */
#include "pcuspl.h"

/* Solves the symmetric, nearly tridiagonal system: diagonal a, beside it b, in the corners c; y is the right side, then the answer.
 * a and y are overwritten, v is workspace. */
void ptri(double *a, const double *b, double c, double *y, double *v, int n)
{
    double r;
    for (int i = 0; i < n; i++)
        v[i] = 0.0;
    v[0] = c;
    v[n - 2] = b[n - 2];
    for (int i = 0; i < n - 2; i++) {
        r = b[i] / a[i];
        a[i + 1] = a[i + 1] - r * b[i];
        y[i + 1] = y[i + 1] - r * y[i];
        r = v[i] / a[i];
        v[i + 1] = v[i + 1] - r * b[i];
        a[n - 1] = a[n - 1] - r * v[i];
        y[n - 1] = y[n - 1] - r * y[i];
    }
    r = v[n - 2] / a[n - 2];
    a[n - 1] = a[n - 1] - r * v[n - 2];
    y[n - 1] = y[n - 1] - r * y[n - 2];
    y[n - 1] = y[n - 1] / a[n - 1];
    y[n - 2] = (y[n - 2] - v[n - 2] * y[n - 1]) / a[n - 2];
    for (int i = n - 3; i >= 0; i--)
        y[i] = (y[i] - v[i] * y[n - 1] - b[i] * y[i + 1]) / a[i];
}

/* x[axis] are the coordinates, t the n + 1 values of the parameter; bb, cc, dd [axis] get the coefficients. a, b, h, v are workspace
 * (h holds the parameter's steps, which 004 keeps in BX). */
void pcuspl(double *const x[3], const double *t, int n, double *const bb[3], double *const cc[3], double *const dd[3], double *a,
            double *b, double *h, double *v)
{
    for (int j = 0; j < n; j++)
        h[j] = t[j + 1] - t[j];
    for (int k = 0; k < 3; k++) {
        double *d = dd[k], *c = cc[k];
        for (int j = 0; j < n - 1; j++)
            d[j] = (x[k][j + 1] - x[k][j]) / h[j];
        d[n - 1] = (x[k][0] - x[k][n - 1]) / h[n - 1];
        for (int i = 1; i < n - 1; i++) {
            a[i] = h[i - 1] + h[i - 1] + h[i] + h[i];
            b[i] = h[i];
            c[i] = d[i] - d[i - 1];
        }
        a[n - 1] = h[n - 2] + h[n - 2] + (h[n - 1] + h[n - 1]);
        a[0] = h[0] + h[0] + (h[n - 1] + h[n - 1]);
        b[0] = h[0];
        c[0] = d[0] - d[n - 1];
        c[n - 1] = d[n - 1] - d[n - 2];
        ptri(a, b, h[n - 1], c, v, n);
        /* c now contains sigma */
        double c1 = c[0];
        for (int i = 0; i < n; i++) {
            double next = i == n - 1 ? c1 : c[i + 1];
            bb[k][i] = d[i] - h[i] * (next + c[i] + c[i]);
            d[i] = (next - c[i]) / h[i];
            c[i] = 3.0 * c[i];
        }
    }
}

/* The spline at u; the knots are x[0 .. n - 1], past the last one the last piece goes on. */
double seval(int n, double u, const double *x, const double *y, const double *b, const double *c, const double *d)
{
    static int i = 0;
    if (i >= n - 1)
        i = 0;
    if (u < x[i] || u > x[i + 1]) {
        int j = n;
        i = 0;
        do {
            int k = (i + j) / 2;
            if (u < x[k])
                j = k;
            else
                i = k;
        } while (j > i + 1);
    }
    double dx = u - x[i];
    return y[i] + dx * (b[i] + dx * (c[i] + dx * d[i]));
}

/* A closed sheet, decoded and laid out by PCUSPL. The sheet is taken as accepted: 004 tests nothing. */
void pcuspl_lay_out(const uint8_t *sheet, struct pcuspl *p)
{
    int n = sheet[6] << 8 | sheet[7];
    const uint8_t *legs = sheet + 8, *points = legs + 2 * n;
    p->n = n;
    p->t[0] = 0.0;
    for (int i = 0; i < n; i++) {
        p->t[i + 1] = p->t[i] + (legs[2 * i] << 8 | legs[2 * i + 1]);
        for (int k = 0; k < 3; k++) {
            const uint8_t *q = points + 12 * i + 4 * k;
            p->x[k][i] = (int32_t)((uint32_t)q[0] << 24 | (uint32_t)q[1] << 16 | (uint32_t)q[2] << 8 | q[3]);
        }
    }
    double *x[3] = {p->x[0], p->x[1], p->x[2]}, *b[3] = {p->b[0], p->b[1], p->b[2]}, *c[3] = {p->c[0], p->c[1], p->c[2]},
           *d[3] = {p->d[0], p->d[1], p->d[2]};
    pcuspl(x, p->t, n, b, c, d, p->work[0], p->work[1], p->work[2], p->work[3]);
}

/* The place at a tick below P, by SEVAL on each axis. */
void pcuspl_place(const struct pcuspl *p, double tick, double out[3])
{
    for (int k = 0; k < 3; k++)
        out[k] = seval(p->n, tick, p->t, p->x[k], p->b[k], p->c[k], p->d[k]);
}
