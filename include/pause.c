/* How the functions of blink.h that wait let other threads run. It is a call of the kernel by its number, since nanosleep is a
 * cancellation point, and strict C doesn't declare it. */
#define _GNU_SOURCE
#include "blink.h"
#include <sched.h>
#include <sys/syscall.h>
#include <time.h>
#include <unistd.h>

void blink_pause(uint32_t *pauses) {
    if (*pauses < BLINK_YIELDS) {
        ++*pauses;
        sched_yield();
    } else {
        struct timespec time = {0, 50000};
        syscall(SYS_nanosleep, &time, NULL);
    }
}
