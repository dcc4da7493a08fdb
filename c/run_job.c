/* Hands the job on standard input to the router and prints what it says.
 *
 *     run_job [SIZE]
 *
 * SIZE is the size of the output memory, 65536 if it is not told. The exit status is the number of the fault, or 0.
 */
#include "sumoalder.h"

#include <stdio.h>
#include <stdlib.h>

int main(int argc, char **argv)
{
    /* One byte more than a job may have, so that a longer one is seen to be too long. */
    static uint8_t job[SUMOALDER_JOB_MAX + 1];
    size_t size = argc > 1 ? strtoul(argv[1], NULL, 10) : 65536;
    uint8_t *output = malloc(size + 1);
    if (output == NULL)
        return 33;
    size_t length = fread(job, 1, sizeof job, stdin);
    uint64_t answer = sumoalder_run_job(job, length, output, size);
    fwrite(output, 1, sumoalder_bytes(answer), stdout);
    free(output);
    return (int)sumoalder_fault(answer);
}
