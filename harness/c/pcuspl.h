/* 004's PCUSPL, PTRI and SEVAL in C, over a sheet (see pcuspl.c). */
#ifndef PCUSPL_H
#define PCUSPL_H

#include <stdint.h>

struct pcuspl {
    int32_t n;
    double t[513], x[3][512], b[3][512], c[3][512], d[3][512], work[4][512];
};

void pcuspl_lay_out(const uint8_t *sheet, struct pcuspl *p);
void pcuspl_place(const struct pcuspl *p, double tick, double out[3]);

#endif
