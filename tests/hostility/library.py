"""A stand-in for the calls of the C library that the program makes, which the dynamic linker loads first.

Calls of the kinds in KINDS are counted together, and those from the number FIRST to LAST fail with the error ERROR:

    m  malloc, realloc            r  read       o  open      t  pthread_create
    a  pthread_attr_init and      w  write      c  close     s  syscall, where a thread waits
       pthread_attr_setguardsize

A read or a write that fails with error 0 gives 0 bytes. Reads and writes that don't fail give at most READS or WRITES
bytes each, where these are given. Of the call with the number FIRST its kind and the digit of its descriptor are
written to the descriptor TELLS.
"""
import os
import subprocess

ALWAYS = "1000000000"  # as LAST: from FIRST on

TEXT = r"""
#define _GNU_SOURCE
#include <dlfcn.h>
#include <errno.h>
#include <linux/futex.h>
#include <pthread.h>
#include <stdarg.h>
#include <stdlib.h>
#include <string.h>
#include <sys/syscall.h>
#include <unistd.h>
extern void *__libc_malloc(size_t), *__libc_realloc(void *, size_t);
extern ssize_t __read(int, void *, size_t), __write(int, const void *, size_t);
extern int __open(const char *, int, ...), __close(int);
typedef int create_type(pthread_t *, const pthread_attr_t *, void *(*)(void *), void *);
typedef int init_type(pthread_attr_t *);
typedef int guard_type(pthread_attr_t *, size_t);
typedef long syscall_type(long, ...);
static create_type *real_create;
static init_type *real_init;
static guard_type *real_guard;
static syscall_type *real_syscall;
static const char *kinds = "";
static long turn, first, last, error, reads, writes, tells;

static long number(const char *name, long otherwise) {
    char *text = getenv(name);
    return text ? atol(text) : otherwise;
}
__attribute__((constructor)) static void begin(void) {
    real_create = (create_type *)dlsym(RTLD_NEXT, "pthread_create");
    real_init = (init_type *)dlsym(RTLD_NEXT, "pthread_attr_init");
    real_guard = (guard_type *)dlsym(RTLD_NEXT, "pthread_attr_setguardsize");
    real_syscall = (syscall_type *)dlsym(RTLD_NEXT, "syscall");
    first = number("FIRST", 0);
    last = number("LAST", first);
    error = number("ERROR", ENOMEM);
    reads = number("READS", 0);
    writes = number("WRITES", 0);
    tells = number("TELLS", -1);
    if (getenv("KINDS")) kinds = getenv("KINDS");
}
static int is_refused(char kind, int descriptor) {
    char said[2] = {kind, '0' + descriptor % 10};
    if (!strchr(kinds, kind)) return 0;
    long now = __atomic_add_fetch(&turn, 1, __ATOMIC_RELAXED);
    if (now == first && __write(tells, said, 2) != 2) abort();
    if (now < first || now > last) return 0;
    errno = error;
    return 1;
}
void *malloc(size_t size) { return is_refused('m', 0) ? 0 : __libc_malloc(size); }
void *realloc(void *old, size_t size) { return is_refused('m', 0) ? 0 : __libc_realloc(old, size); }
ssize_t read(int descriptor, void *bytes, size_t size) {
    if (is_refused('r', descriptor)) return error ? -1 : 0;
    return __read(descriptor, bytes, reads && (size_t)reads < size ? (size_t)reads : size);
}
ssize_t write(int descriptor, const void *bytes, size_t size) {
    if (is_refused('w', descriptor)) return error ? -1 : 0;
    return __write(descriptor, bytes, writes && (size_t)writes < size ? (size_t)writes : size);
}
int open(const char *name, int flags, ...) {
    va_list more;
    va_start(more, flags);
    int mode = va_arg(more, int);
    va_end(more);
    return is_refused('o', 0) ? -1 : __open(name, flags, mode);
}
int close(int descriptor) {
    int is_wrong = is_refused('c', descriptor), saved = errno, status = __close(descriptor);
    if (is_wrong) errno = saved;
    return is_wrong ? -1 : status;
}
int pthread_attr_init(pthread_attr_t *how) { return is_refused('a', 0) ? (int)error : real_init(how); }
int pthread_attr_setguardsize(pthread_attr_t *how, size_t size) {
    return is_refused('a', 0) ? (int)error : real_guard(how, size);
}
int pthread_create(pthread_t *thread, const pthread_attr_t *how, void *(*work)(void *), void *given) {
    return is_refused('t', 0) ? (int)error : real_create(thread, how, work, given);
}
long syscall(long asked, ...) {
    long of[6];
    va_list more;
    va_start(more, asked);
    for (int place = 0; place < 6; place++) of[place] = va_arg(more, long);
    va_end(more);
    int asks = of[1] & FUTEX_CMD_MASK;
    int does_wait = asked == SYS_futex && (asks == FUTEX_WAIT || asks == FUTEX_WAIT_BITSET);
    return does_wait && is_refused('s', 0) ? -1 : real_syscall(asked, of[0], of[1], of[2], of[3], of[4], of[5]);
}
"""


def made(room, text=TEXT, name="refuse.so"):
    """The library of a text in C."""
    library = os.path.join(room, name)
    words = ["cc", "-shared", "-fPIC", "-O2", "-o", library, "-xc", "-", "-ldl"]
    subprocess.run(words, input=text.encode(), check=True)
    return library
