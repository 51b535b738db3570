/* Refuses requests for memory of the program that it is loaded into, for bench/refused_memory.py: the one of the number in REFUSE_AT,
 * counted from 1, and with REFUSE_ON all later ones too. At the program's end, which is a call of _exit, it writes how many there were to
 * the file of REFUSE_TOLD. */
#define _GNU_SOURCE
#include <errno.h>
#include <fcntl.h>
#include <stdatomic.h>
#include <stdio.h>
#include <stdlib.h>
#include <sys/syscall.h>
#include <unistd.h>

void *__libc_malloc(size_t size);
void *__libc_calloc(size_t count, size_t size);
void *__libc_realloc(void *block, size_t size);

static atomic_ulong requests;
static unsigned long refused_at;
static int goes_on;

__attribute__((constructor)) static void begin(void) {
    const char *at = getenv("REFUSE_AT");
    goes_on = getenv("REFUSE_ON") != NULL;
    requests = 0;
    refused_at = at != NULL ? strtoul(at, NULL, 10) : 0;
}

/* Counts a request, and says whether it is refused. */
static int is_refused(void) {
    unsigned long number = atomic_fetch_add(&requests, 1) + 1;
    int is = refused_at != 0 && (goes_on ? number >= refused_at : number == refused_at);
    if (is)
        errno = ENOMEM;
    return is;
}

void *malloc(size_t size) {
    return is_refused() ? NULL : __libc_malloc(size);
}

void *calloc(size_t count, size_t size) {
    return is_refused() ? NULL : __libc_calloc(count, size);
}

void *realloc(void *block, size_t size) {
    return is_refused() ? NULL : __libc_realloc(block, size);
}

/* Whether the count was written, or none is asked for. */
static int is_told(void) {
    char text[24];
    const char *told = getenv("REFUSE_TOLD");
    if (told == NULL)
        return 1;
    int file = open(told, O_WRONLY | O_CREAT | O_TRUNC, 0600);
    if (file < 0)
        return 0;
    int length = snprintf(text, sizeof text, "%lu", atomic_load(&requests));
    int is = write(file, text, length) == length;
    close(file);
    return is;
}

void _exit(int status) {
    syscall(SYS_exit_group, is_told() ? status : 125);
    __builtin_unreachable();
}
