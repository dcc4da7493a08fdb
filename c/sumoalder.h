/* The entry point of the router for programs in C.
 *
 * A job is a text that describes a board and makes calls on it; docs/JOBS.md has the language. The job is run on a drawing of its
 * own, and what it says is written to the front of the output memory.
 */
#ifndef SUMOALDER_H
#define SUMOALDER_H

#include <stddef.h>
#include <stdint.h>

#ifdef __cplusplus
extern "C" {
#endif

/* The longest job, and the least output memory. */
#define SUMOALDER_JOB_MAX 32768
#define SUMOALDER_OUTPUT_MIN 24

/* Runs a job. The answer is the number of bytes written x 256 + the number of the fault that ended the job, or 0 for none.
 *
 * Neither pointer may be null, also where a length is 0, and the two memories may not overlap. Output memory beyond the bytes
 * written is left as it was. Faults 13 and 16 to 20 come with a last line that names the line of the job. Nothing is written with 21
 * (job too long or output memory too small) and with 33 (too little memory to run the job).
 */
uint64_t sumoalder_run_job(const uint8_t *job, size_t job_length, uint8_t *output, size_t output_length);

static inline size_t sumoalder_bytes(uint64_t answer) { return (size_t)(answer >> 8); }
static inline unsigned sumoalder_fault(uint64_t answer) { return (unsigned)(answer & 0xff); }

#ifdef __cplusplus
}
#endif

#endif
