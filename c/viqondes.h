/* Judges the plan records of a shuttle floor. Link with libviqondes.a. */
#ifndef VIQONDES_H
#define VIQONDES_H

#include <stddef.h>
#include <stdint.h>

#ifdef __cplusplus
extern "C" {
#endif

/* The number of the fault of the record or of its graph, or 0 where there is none. `bytes` points
   to `len` bytes that the call may read and nobody writes meanwhile; it is not null, not even where
   `len` is 0. The call keeps nothing, allocates nothing and always returns. docs/RECORD.md and
   docs/GRAPH.md list the numbers. */
uint8_t viqondes_plan_fault(const uint8_t *bytes, size_t len);

#ifdef __cplusplus
}
#endif

#endif
