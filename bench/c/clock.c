/* Seconds of processor time that this process has used: what others do on the machine counts less than in wall time. */
#define _POSIX_C_SOURCE 199309L
#include <time.h>

double processor_seconds(void)
{
    struct timespec used;
    clock_gettime(CLOCK_PROCESS_CPUTIME_ID, &used);
    return (double)used.tv_sec + (double)used.tv_nsec * 1e-9;
}
