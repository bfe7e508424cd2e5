/* Refuses a program memory, or lets its reads and writes fail. refused_memory.sh builds it as a library and
   loads it before the C library:

     cc -shared -fPIC -O2 -o refuse.so refuse.c

   It counts calls from main on, of all threads, each kind from 1: memory (malloc, calloc, realloc), input (reads,
   of any descriptor), output and errors (writes to standard output, to standard error).

   REFUSE      the kind of which calls are refused
   REFUSE_AT   the number of the first call that is refused
   REFUSE_ALL  where it is set, all later calls are refused too; otherwise that call alone
   REFUSE_HOW  what becomes of them: `error` (no memory, or an I/O error), or of a read or write `short` (it moves
               one byte) or `interrupted` (by a signal, before it moved any)
   REFUSE_COUNTS  the file that gets the number of calls of each kind, in the order above, when the program ends */
#define _GNU_SOURCE
#include <dlfcn.h>
#include <errno.h>
#include <fcntl.h>
#include <stdio.h>
#include <stdlib.h>
#include <string.h>
#include <sys/syscall.h>
#include <sys/uio.h>
#include <unistd.h>

extern void *__libc_malloc(size_t size);
extern void *__libc_calloc(size_t count, size_t size);
extern void *__libc_realloc(void *block, size_t size);

enum kind { MEMORY, INPUT, OUTPUT, ERRORS, KINDS };

static const char *const names[KINDS] = {"memory", "input", "output", "errors"};
static long counts[KINDS];
static int counting, refused_kind = KINDS, refuses_all;
static long first_refused;
static const char *how = "error";

/* Counts a call, and says whether it is to be refused. */
static int is_refused(int kind) {
    if (!__atomic_load_n(&counting, __ATOMIC_SEQ_CST)) return 0;
    long number = __atomic_add_fetch(&counts[kind], 1, __ATOMIC_SEQ_CST);
    if (kind != refused_kind) return 0;
    return refuses_all ? number >= first_refused : number == first_refused;
}

static void *no_memory(void) {
    errno = ENOMEM;
    return NULL;
}

void *malloc(size_t size) { return is_refused(MEMORY) ? no_memory() : __libc_malloc(size); }

void *calloc(size_t count, size_t size) {
    return is_refused(MEMORY) ? no_memory() : __libc_calloc(count, size);
}

void *realloc(void *block, size_t size) {
    return is_refused(MEMORY) ? no_memory() : __libc_realloc(block, size);
}

/* Reads or writes, or not. An empty call is left as it is, but counted. */
static ssize_t move(long call, int kind, int file, void *bytes, size_t size) {
    if (kind != KINDS && is_refused(kind)) {
        if (!strcmp(how, "short")) {
            size = size > 1 ? 1 : size;
        } else {
            errno = strcmp(how, "interrupted") ? EIO : EINTR;
            return -1;
        }
    }
    return syscall(call, file, bytes, size);
}

static int kind_of_write(int file) {
    return file == STDOUT_FILENO ? OUTPUT : file == STDERR_FILENO ? ERRORS : KINDS;
}

ssize_t read(int file, void *bytes, size_t size) { return move(SYS_read, INPUT, file, bytes, size); }

ssize_t write(int file, const void *bytes, size_t size) {
    return move(SYS_write, kind_of_write(file), file, (void *)bytes, size);
}

ssize_t __read(int file, void *bytes, size_t size) { return read(file, bytes, size); }

ssize_t __write(int file, const void *bytes, size_t size) { return write(file, bytes, size); }

static void write_counts(void) {
    __atomic_store_n(&counting, 0, __ATOMIC_SEQ_CST);
    const char *path = getenv("REFUSE_COUNTS");
    FILE *file = path ? fopen(path, "w") : NULL;
    if (!file) return;
    fprintf(file, "%ld %ld %ld %ld\n", counts[MEMORY], counts[INPUT], counts[OUTPUT], counts[ERRORS]);
    fclose(file);
}

/* The program may end by this, or by a return from main. */
void _exit(int status) {
    write_counts();
    syscall(SYS_exit_group, status);
    __builtin_unreachable();
}

static int (*real_main)(int, char **, char **);

static int counted_main(int argc, char **argv, char **envp) {
    const char *kind = getenv("REFUSE"), *at = getenv("REFUSE_AT");
    for (int k = 0; kind && k < KINDS; k++)
        if (!strcmp(kind, names[k])) refused_kind = k;
    first_refused = at ? atol(at) : 0;
    refuses_all = getenv("REFUSE_ALL") != NULL;
    if (getenv("REFUSE_HOW")) how = getenv("REFUSE_HOW");
    atexit(write_counts);
    __atomic_store_n(&counting, 1, __ATOMIC_SEQ_CST);
    return real_main(argc, argv, envp);
}

/* The C library's own start, with the main above round the program's. */
int __libc_start_main(int (*main)(int, char **, char **), int argc, char **argv, void (*init)(void),
                      void (*fini)(void), void (*rtld_fini)(void), void *stack_end) {
    int (*start)(int (*)(int, char **, char **), int, char **, void (*)(void), void (*)(void), void (*)(void), void *) =
        dlsym(RTLD_NEXT, "__libc_start_main");
    real_main = main;
    return start(counted_main, argc, argv, init, fini, rtld_fini, stack_end);
}
