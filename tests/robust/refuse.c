/* Refuses one call of a program that is started with this library before its own, and counts them.

   REFUSE_KIND is `memory`, `calls` or `short`. `memory` are requests for memory. `calls` are reads, writes, syncs, openings,
   renamings, removals, and looks at what a name names. `short` are reads and writes of several bytes, of which the one that is
   chosen moves one byte. REFUSE_NUMBER says which call, counted from 1; 0 refuses none. How many there were goes to the file
   REFUSE_TOLD. Only what the program itself asks for counts, and nothing that the libraries of the system ask for each other. */
#define _GNU_SOURCE
#include <errno.h>
#include <fcntl.h>
#include <link.h>
#include <stdarg.h>
#include <stdatomic.h>
#include <stdio.h>
#include <stdlib.h>
#include <string.h>
#include <sys/stat.h>
#include <sys/syscall.h>
#include <unistd.h>

void *__libc_malloc(size_t size);
void *__libc_realloc(void *block, size_t size);

static atomic_long count;
static long number;
static const char *kind = "";
static uintptr_t first, last;

static int note_program(struct dl_phdr_info *info, size_t size, void *none) {
    (void)size, (void)none;
    for (int i = 0; i < info->dlpi_phnum; i++) {
        const ElfW(Phdr) *part = &info->dlpi_phdr[i];
        if (part->p_type == PT_LOAD && part->p_flags & PF_X) {
            first = info->dlpi_addr + part->p_vaddr;
            last = first + part->p_memsz;
        }
    }
    return 1;
}

__attribute__((constructor)) static void begin(void) {
    const char *told = getenv("REFUSE_NUMBER");
    number = told ? atol(told) : 0;
    kind = getenv("REFUSE_KIND") ? getenv("REFUSE_KIND") : "";
    dl_iterate_phdr(note_program, NULL);
}

__attribute__((destructor)) static void end(void) {
    const char *path = getenv("REFUSE_TOLD");
    char text[32];
    int length = snprintf(text, sizeof text, "%ld", atomic_load(&count));
    int file = path ? (int)syscall(SYS_openat, AT_FDCWD, path, O_WRONLY | O_CREAT | O_TRUNC, 0644) : -1;
    if (file >= 0) {
        syscall(SYS_write, file, text, length);
        syscall(SYS_close, file);
    }
}

/* Counts a call of the program of this kind, and answers whether it is the one that is chosen. */
static int is_chosen(const char *own, void *caller) {
    uintptr_t at = (uintptr_t)caller;
    return at >= first && at < last && !strcmp(own, kind) && atomic_fetch_add(&count, 1) + 1 == number;
}

#define CHOSEN(own) is_chosen(own, __builtin_return_address(0))

static long failed(void) {
    errno = EIO;
    return -1;
}

void *malloc(size_t size) {
    return CHOSEN("memory") ? NULL : __libc_malloc(size);
}

void *realloc(void *block, size_t size) {
    return CHOSEN("memory") ? NULL : __libc_realloc(block, size);
}

ssize_t read(int file, void *into, size_t size) {
    if (CHOSEN("calls"))
        return failed();
    return syscall(SYS_read, file, into, size > 1 && CHOSEN("short") ? 1 : size);
}

ssize_t write(int file, const void *from, size_t size) {
    if (CHOSEN("calls"))
        return failed();
    return syscall(SYS_write, file, from, size > 1 && CHOSEN("short") ? 1 : size);
}

int fsync(int file) {
    return CHOSEN("calls") ? failed() : syscall(SYS_fsync, file);
}

int fdatasync(int file) {
    return CHOSEN("calls") ? failed() : syscall(SYS_fdatasync, file);
}

int open(const char *path, int flags, ...) {
    va_list rest;
    va_start(rest, flags);
    int mode = flags & O_CREAT ? va_arg(rest, int) : 0;
    va_end(rest);
    return CHOSEN("calls") ? failed() : syscall(SYS_openat, AT_FDCWD, path, flags, mode);
}

int rename(const char *from, const char *to) {
    return CHOSEN("calls") ? failed() : syscall(SYS_renameat2, AT_FDCWD, from, AT_FDCWD, to, 0);
}

int statx(int folder, const char *path, int flags, unsigned wanted, struct statx *found) {
    return CHOSEN("calls") ? failed() : syscall(SYS_statx, folder, path, flags, wanted, found);
}

int unlink(const char *path) {
    return CHOSEN("calls") ? failed() : syscall(SYS_unlinkat, AT_FDCWD, path, 0);
}

/* The program ends by this call, after which no library is told. */
void _exit(int status) {
    end();
    syscall(SYS_exit_group, status);
    __builtin_unreachable();
}
