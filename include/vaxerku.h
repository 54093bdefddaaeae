/* Vaxerku: certifying cutting-table jobs, from C and C++. */
#ifndef VAXERKU_H
#define VAXERKU_H

#include <stddef.h>
#include <stdint.h>

#ifdef __cplusplus
extern "C" {
#endif

/*
 * Reads a plan file, which is the `length` bytes at `file`, and tests whether its plan is certified on its supply.
 *
 * Returns 0 where it is certified, else the number of the refusal, from 1 to 11: 1 to 10 where the file is refused,
 * 11 where it is accepted and its plan is not certified. docs/PLAN_FILE.md has the format and the numbers. There are
 * 64 places for blocks.
 *
 * `file` must be a pointer to `length` readable bytes, and not null even for length 0: the caller sees to that. The
 * call reads these bytes, alters nothing and keeps nothing, so it may be made again at any time, also from an
 * interrupt. It needs no heap; the plan, a draft of it and 64 blocks are held on the stack.
 */
uint32_t vaxerku_certify(const uint8_t *file, size_t length);

#ifdef __cplusplus
}
#endif

#endif
