/* What only the comparison with the Rust asks: the boundary of the static library libparts.a. A host needs none of it.
 * Lists cross as in peatcloak.h, and are refused as there. */
#ifndef PEATCLOAK_PARTS_H
#define PEATCLOAK_PARTS_H

#include "peatcloak.h"

#ifdef __cplusplus
extern "C" {
#endif

/* ---- Written by .ci/layout from crates/layout/src/places.rt */

/* Answers of a run of bets, where a step's answers stand: the payments added one after another, and how many bets were
 * taken. */
enum peatcloak_run {
    PEATCLOAK_RUN_PAID = 6, /* of the floats */
    PEATCLOAK_RUN_TAKEN = 23 /* of the numbers */
};

/* ---- So far written by .ci/layout from crates/layout/src/places.rt */

/* The amounts one after another as voluntary bets, by value inside. */
uint32_t peatcloak_run_bets(float *floats, size_t floats_len, uint32_t *numbers, size_t numbers_len,
                            const float *amounts, size_t amounts_len);

/* Float helpers; the tests answer 0 or 1. */
float peatcloak_max(float a, float b);
float peatcloak_min(float a, float b);
float peatcloak_tol(float x);
float peatcloak_abs(float x);
uint32_t peatcloak_is_sign_negative(float x);
uint32_t peatcloak_is_nan(float x);
uint32_t peatcloak_is_near_zero(float x);

#ifdef __cplusplus
}
#endif

#endif
