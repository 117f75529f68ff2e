/* Has each thread that woke another one go on late, so that the other one runs first. It is loaded in front of the C
 * library (LD_PRELOAD), whose call `syscall` wakes threads by a futex. */
#define _GNU_SOURCE
#include <dlfcn.h>
#include <linux/futex.h>
#include <stdarg.h>
#include <stdlib.h>
#include <sys/syscall.h>
#include <time.h>

static const struct timespec late = {.tv_sec = 0, .tv_nsec = 5000000};

static long (*real)(long, ...);
__attribute__((constructor)) static void begin(void) {
    real = (long (*)(long, ...))dlsym(RTLD_NEXT, "syscall");
    if (!real) abort();
}

static int is_wake(long number, long kind) {
    return number == SYS_futex && (kind & FUTEX_CMD_MASK) == FUTEX_WAKE;
}

/* The C library's call takes six further words, however many of them the kernel's call has. */
long syscall(long number, ...) {
    long word[6];
    va_list words;
    va_start(words, number);
    for (int at = 0; at < 6; at++) word[at] = va_arg(words, long);
    va_end(words);
    long done = real(number, word[0], word[1], word[2], word[3], word[4], word[5]);
    if (is_wake(number, word[1])) nanosleep(&late, NULL);
    return done;
}
