// A library that is loaded before a program (LD_PRELOAD), and refuses it memory, files, reads or writes.
//
//   REFUSE_GROWTH=n    the n-th request for memory is refused
//   REFUSE_FROM=n      the n-th and all later ones are
//   INPUT_ENDS=n       standard input gives n bytes, and then fails
//   INPUT_PIECE=n      it gives at most n bytes at a time
//   INPUT_CUT=n        it gives n bytes first, and then the rest
//   OUTPUT_ENDS=n      standard output takes n bytes, and then fails
//   OUTPUT_STOPS=n     standard output takes n bytes, and then none, without failing
//   OUTPUT_PIECE=n     it takes at most n bytes at a time
//   OPEN_FAILS=n       the n-th file that is opened can't be
//   READ_FAILS=n       the n-th read of another file than standard input fails
//   FILE_PIECE=n       such a read gives at most n bytes
//   FILE_CUT=n         each other file gives n bytes first, and then the rest
//   COUNT=FILE         how many requests for memory, opened files and reads of them came is written there at the end,
//                      and how many of these requests before the first write to standard output
#define _GNU_SOURCE
#include <dlfcn.h>
#include <errno.h>
#include <fcntl.h>
#include <stdarg.h>
#include <stdio.h>
#include <stdlib.h>
#include <sys/syscall.h>
#include <unistd.h>

static void *(*real_malloc)(size_t);
static void *(*real_realloc)(void *, size_t);
static void *(*real_calloc)(size_t, size_t);
static int (*real_memalign)(void **, size_t, size_t);
static long refused, refused_from, input_ends, input_piece, input_cut, output_ends, output_stops, output_piece;
static long open_fails, read_fails, file_piece, file_cut;
static long growths, opened, reads, given, taken, growths_before_output;
static int has_written;
static int is_ready, is_starting;

// What is asked for while the real functions are looked up.
static char early[65536];
static size_t early_used;

static long number_of(const char *name) {
    const char *text = getenv(name);
    return text ? atol(text) : -1;
}

static void start(void) {
    if (is_ready || is_starting) return;
    is_starting = 1;
    real_malloc = dlsym(RTLD_NEXT, "malloc");
    real_realloc = dlsym(RTLD_NEXT, "realloc");
    real_calloc = dlsym(RTLD_NEXT, "calloc");
    real_memalign = dlsym(RTLD_NEXT, "posix_memalign");
    refused = number_of("REFUSE_GROWTH");
    refused_from = number_of("REFUSE_FROM");
    input_ends = number_of("INPUT_ENDS");
    input_piece = number_of("INPUT_PIECE");
    input_cut = number_of("INPUT_CUT");
    output_ends = number_of("OUTPUT_ENDS");
    output_stops = number_of("OUTPUT_STOPS");
    output_piece = number_of("OUTPUT_PIECE");
    open_fails = number_of("OPEN_FAILS");
    read_fails = number_of("READ_FAILS");
    file_piece = number_of("FILE_PIECE");
    file_cut = number_of("FILE_CUT");
    is_ready = 1;
}

// What was asked for before the program begins isn't counted.
__attribute__((constructor)) static void begin(void) {
    start();
    growths = opened = reads = 0;
}

__attribute__((destructor)) static void tell_count(void) {
    const char *path = getenv("COUNT");
    char text[128];
    if (!has_written) growths_before_output = growths;
    int length = snprintf(text, sizeof text, "%ld %ld %ld %ld\n", growths, opened, reads, growths_before_output);
    int file = path ? syscall(SYS_openat, AT_FDCWD, path, O_WRONLY | O_CREAT | O_TRUNC, 0600) : -1;
    if (file >= 0) {
        syscall(SYS_write, file, text, length);
        syscall(SYS_close, file);
    }
}

static void *take_early(size_t size) {
    void *place = early + early_used;
    early_used += (size + 15) & ~(size_t)15;
    return early_used <= sizeof early ? place : NULL;
}

static int is_refused(void) {
    growths++;
    if (growths != refused && (refused_from < 0 || growths < refused_from)) return 0;
    errno = ENOMEM;
    return 1;
}

void *malloc(size_t size) {
    start();
    if (!is_ready) return take_early(size);
    return is_refused() ? NULL : real_malloc(size);
}

void *calloc(size_t count, size_t size) {
    start();
    if (!is_ready) return take_early(count * size);
    return is_refused() ? NULL : real_calloc(count, size);
}

void *realloc(void *place, size_t size) {
    start();
    return is_refused() ? NULL : real_realloc(place, size);
}

int posix_memalign(void **place, size_t alignment, size_t size) {
    start();
    return is_refused() ? ENOMEM : real_memalign(place, alignment, size);
}

void *aligned_alloc(size_t alignment, size_t size) {
    void *place = NULL;
    return posix_memalign(&place, alignment, size) ? NULL : place;
}

// How many of so many bytes a device moves that moved some before; -1 where it fails.
static ssize_t allowed(size_t length, long moved, long ends, long piece) {
    if (ends >= 0 && moved >= ends) return -1;
    if (piece > 0 && length > (size_t)piece) length = piece;
    if (ends >= 0 && length > (size_t)(ends - moved)) length = ends - moved;
    return length;
}

// How many of so many bytes a device gives at once that gave some before and is cut at a place.
static size_t up_to_cut(size_t length, long moved, long cut) {
    return moved < cut && length > (size_t)(cut - moved) ? (size_t)(cut - moved) : length;
}

static int open_at(int folder, const char *path, int flags, mode_t mode) {
    if (++opened == open_fails) {
        errno = EACCES;
        return -1;
    }
    return syscall(SYS_openat, folder, path, flags, mode);
}

#define MODE_OF(flags) \
    mode_t mode = 0; \
    if ((flags) & (O_CREAT | O_TMPFILE)) { \
        va_list more; \
        va_start(more, flags); \
        mode = va_arg(more, int); \
        va_end(more); \
    }

int open(const char *path, int flags, ...) {
    MODE_OF(flags)
    return open_at(AT_FDCWD, path, flags, mode);
}

int open64(const char *path, int flags, ...) {
    MODE_OF(flags)
    return open_at(AT_FDCWD, path, flags, mode);
}

int openat(int folder, const char *path, int flags, ...) {
    MODE_OF(flags)
    return open_at(folder, path, flags, mode);
}

static ssize_t read_of_file(int file, void *buffer, size_t length) {
    if (++reads == read_fails) {
        errno = EIO;
        return -1;
    }
    long moved = file_cut > 0 ? syscall(SYS_lseek, file, 0, SEEK_CUR) : 0;
    return syscall(SYS_read, file, buffer, up_to_cut(allowed(length, 0, -1, file_piece), moved, file_cut));
}

ssize_t read(int file, void *buffer, size_t length) {
    if (file != STDIN_FILENO) return read_of_file(file, buffer, length);
    ssize_t most = allowed(up_to_cut(length, given, input_cut), given, input_ends, input_piece);
    if (most < 0) {
        errno = EIO;
        return -1;
    }
    ssize_t moved = syscall(SYS_read, file, buffer, most);
    given += moved > 0 ? moved : 0;
    return moved;
}

ssize_t write(int file, const void *buffer, size_t length) {
    if (file != STDOUT_FILENO) return syscall(SYS_write, file, buffer, length);
    if (!has_written) growths_before_output = growths;
    has_written = 1;
    if (output_stops >= 0 && taken >= output_stops) return 0;
    ssize_t most = allowed(length, taken, output_ends, output_piece);
    if (most < 0) {
        errno = ENOSPC;
        return -1;
    }
    if (output_stops >= 0 && most > output_stops - taken) most = output_stops - taken;
    ssize_t moved = syscall(SYS_write, file, buffer, most);
    taken += moved > 0 ? moved : 0;
    return moved;
}
