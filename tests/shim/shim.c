/*
 * A library that is preloaded into the built program and stands between it and
 * the C library: it refuses growths of memory and makes an input and standard
 * output fail, answer interrupted, or move few bytes at a time.
 *
 * It is set by environment variables, each a decimal number; one that is not
 * set, or 0 where not said otherwise, does nothing. Calls count from 1.
 *
 *   SHIM_REFUSE_GROWTH=N    refuse the Nth growth alone
 *   SHIM_REFUSE_FROM=N      refuse the Nth growth and all behind it
 *   SHIM_INPUT=F            reads are those of the file of number F; 0 is
 *                           standard input, and 3 the first that is opened
 *   SHIM_FAIL_READ=K        the Kth read fails
 *   SHIM_INTERRUPT_READ=K   the Kth read is interrupted
 *   SHIM_INTERRUPT_READS=K  the first K reads are interrupted
 *   SHIM_SHORT_READ=B       a read gives at most B bytes
 *   SHIM_ENDLESS=1          every read is filled with the byte '#', without end
 *   SHIM_WRITE_ROOM=B       the writer takes B bytes in all and then fails
 *                           (0 is a value: it takes none)
 *   SHIM_INTERRUPT_WRITE=K  the Kth write is interrupted
 *   SHIM_EMPTY_WRITE=K      the Kth write takes no byte
 *   SHIM_SHORT_WRITE=B      a write takes at most B bytes
 *   SHIM_FAIL_CALL=K        the Kth call for a file fails: an open, a look at a
 *                           file, the target of a link, names of a folder, or
 *                           a read of a file that was opened
 *   SHIM_EACH=NAME          run the program for each value of the setting NAME
 *                           from SHIM_FIRST up, until a run does not meet it
 *                           or the value is SHIM_LAST
 *
 * A growth is a call for memory made by the program's own code; those of the
 * loader and of the C library are let through uncounted. Writes are those of
 * file 1; reads and writes of other files are let through.
 *
 * SHIM_REPORT names a file that holds a `struct report`. The counts in it are
 * kept by a shared mapping, so they are there however the program ends.
 *
 * With SHIM_EACH each run is a copy of the process. It reads standard input from
 * its start, which has to be a file. Of each run standard output gets a
 * `struct run`, and then what the run wrote to standard output and to standard
 * error.
 */
#define _GNU_SOURCE
#include <errno.h>
#include <fcntl.h>
#include <link.h>
#include <stddef.h>
#include <stdint.h>
#include <stdarg.h>
#include <stdlib.h>
#include <string.h>
#include <sys/mman.h>
#include <sys/stat.h>
#include <sys/syscall.h>
#include <sys/wait.h>
#include <unistd.h>

extern void *__libc_malloc(size_t);
extern void *__libc_calloc(size_t, size_t);
extern void *__libc_realloc(void *, size_t);
extern void *__libc_memalign(size_t, size_t);

struct report {
    uint64_t loaded;      /* 1 as soon as the library stands in the program */
    uint64_t growths;     /* calls for memory made by the program */
    uint64_t refused;     /* those of them that were refused */
    uint64_t reads;       /* reads of the input */
    uint64_t read_faults; /* reads that failed or were interrupted */
    uint64_t read_bytes;  /* bytes given by reads */
    uint64_t last_read;   /* bytes given by the last read */
    uint64_t writes;      /* writes to standard output */
    uint64_t write_faults; /* writes that failed, were interrupted or took nothing */
    uint64_t write_bytes; /* bytes taken by writes */
    uint64_t calls;       /* calls for files */
    uint64_t call_faults; /* those of them that failed */
    uint64_t call_sort;   /* the sort of the call that failed */
};

/* The sorts of calls for files. */
enum { OPEN = 1, LOOK, LINK, NAMES, READ };

/* One run of several. */
struct run {
    uint64_t status; /* as waitpid has it */
    struct report report;
    uint64_t output_bytes;
    uint64_t error_bytes;
};

static struct report unshared;
static struct report *report = &unshared;

static uint64_t refuse_growth, refuse_from;
static uint64_t input, fail_read, interrupt_read, interrupt_reads, short_read, endless;
static uint64_t interrupt_write, empty_write, short_write;
static uint64_t write_room, write_room_is_set;
static uint64_t fail_call;

/* The settings that may be counted up, and the place of the count of what each met. */
static const struct setting {
    const char *name;
    uint64_t *value;
    size_t met;
} counted[] = {
    {"refuse_growth", &refuse_growth, offsetof(struct report, refused)},
    {"refuse_from", &refuse_from, offsetof(struct report, refused)},
    {"fail_read", &fail_read, offsetof(struct report, read_faults)},
    {"interrupt_read", &interrupt_read, offsetof(struct report, read_faults)},
    {"interrupt_write", &interrupt_write, offsetof(struct report, write_faults)},
    {"empty_write", &empty_write, offsetof(struct report, write_faults)},
    {"fail_call", &fail_call, offsetof(struct report, call_faults)},
};

static uintptr_t program_start, program_stop;

/* The span of addresses of the first object, which is the program itself. */
static int note_program(struct dl_phdr_info *info, size_t size, void *unused)
{
    (void)size;
    (void)unused;
    program_start = UINTPTR_MAX;
    program_stop = 0;
    for (int i = 0; i < info->dlpi_phnum; i++) {
        const ElfW(Phdr) *part = &info->dlpi_phdr[i];
        if (part->p_type != PT_LOAD)
            continue;
        uintptr_t start = info->dlpi_addr + part->p_vaddr;
        uintptr_t stop = start + part->p_memsz;
        if (start < program_start)
            program_start = start;
        if (stop > program_stop)
            program_stop = stop;
    }
    return 1;
}

static uint64_t number(const char *name)
{
    const char *text = getenv(name);
    return text ? strtoull(text, NULL, 10) : 0;
}

static void share_report(void)
{
    const char *path = getenv("SHIM_REPORT");
    if (!path)
        return;
    int file = (int)syscall(SYS_openat, AT_FDCWD, path, O_RDWR | O_CLOEXEC, 0);
    if (file < 0)
        return;
    void *shared = mmap(NULL, sizeof *report, PROT_READ | PROT_WRITE, MAP_SHARED, file, 0);
    close(file);
    if (shared != MAP_FAILED)
        report = shared;
}

/* ---- several runs -------------------------------------------------------- */

enum { SECONDS = 100 };

static void write_all(int file, const char *bytes, size_t size)
{
    while (size > 0) {
        ssize_t count = syscall(SYS_write, file, bytes, size);
        if (count <= 0)
            _exit(3);
        bytes += count;
        size -= (size_t)count;
    }
}

/* Copies what was written to a file in memory to standard output, and makes it empty. */
static void pass_on(int file, size_t size)
{
    char *bytes = size ? mmap(NULL, size, PROT_READ, MAP_PRIVATE, file, 0) : NULL;
    if (bytes == MAP_FAILED)
        _exit(3);
    if (size) {
        write_all(1, bytes, size);
        munmap(bytes, size);
    }
    if (ftruncate(file, 0) || lseek(file, 0, SEEK_SET))
        _exit(3);
}

static uint64_t size_of(int file)
{
    off_t size = lseek(file, 0, SEEK_END);
    if (size < 0)
        _exit(3);
    return (uint64_t)size;
}

/* Begins a run, which writes to these files. Returns 0 in it. */
static pid_t begin_run(int output, int errors)
{
    memset(report, 0, sizeof *report);
    report->loaded = 1;
    if (lseek(0, 0, SEEK_SET) < 0)
        _exit(3);
    pid_t run = fork();
    if (run == 0) {
        alarm(SECONDS);
        dup2(output, 1);
        dup2(errors, 2);
        close(output);
        close(errors);
    }
    return run;
}

/* Returns in each run, and never in the process that began them. */
static void run_each(const struct setting *setting)
{
    int output = memfd_create("output", 0), errors = memfd_create("errors", 0);
    if (output < 0 || errors < 0)
        _exit(3);
    uint64_t last = number("SHIM_LAST");
    for (*setting->value = number("SHIM_FIRST");; ++*setting->value) {
        pid_t run = begin_run(output, errors);
        if (run == 0)
            return;
        int status;
        if (run < 0 || waitpid(run, &status, 0) != run)
            _exit(3);
        struct run told = {(uint64_t)status, *report, size_of(output), size_of(errors)};
        write_all(1, (const char *)&told, sizeof told);
        pass_on(output, told.output_bytes);
        pass_on(errors, told.error_bytes);
        uint64_t met;
        memcpy(&met, (const char *)report + setting->met, sizeof met);
        if (!met || *setting->value == last)
            _exit(0);
    }
}

static void begin_each(const char *name)
{
    for (size_t i = 0; i < sizeof counted / sizeof *counted; i++) {
        if (strcmp(name, counted[i].name) == 0) {
            run_each(&counted[i]);
            return;
        }
    }
    _exit(3);
}

__attribute__((constructor)) static void begin(void)
{
    refuse_growth = number("SHIM_REFUSE_GROWTH");
    refuse_from = number("SHIM_REFUSE_FROM");
    input = number("SHIM_INPUT");
    fail_read = number("SHIM_FAIL_READ");
    interrupt_read = number("SHIM_INTERRUPT_READ");
    interrupt_reads = number("SHIM_INTERRUPT_READS");
    short_read = number("SHIM_SHORT_READ");
    endless = number("SHIM_ENDLESS");
    interrupt_write = number("SHIM_INTERRUPT_WRITE");
    empty_write = number("SHIM_EMPTY_WRITE");
    short_write = number("SHIM_SHORT_WRITE");
    write_room_is_set = getenv("SHIM_WRITE_ROOM") != NULL;
    write_room = number("SHIM_WRITE_ROOM");
    fail_call = number("SHIM_FAIL_CALL");
    share_report();
    report->loaded = 1;
    if (getenv("SHIM_EACH"))
        begin_each(getenv("SHIM_EACH"));
    /* Growths count from here on, where the program's span is known. */
    dl_iterate_phdr(note_program, NULL);
}

/* ---- memory ------------------------------------------------------------ */

#define FROM_PROGRAM(address)                        \
    ((uintptr_t)(address) >= program_start &&        \
     (uintptr_t)(address) < program_stop)

/* Whether this growth, asked for by the code at `caller`, is refused. */
static int refuses(void *caller)
{
    if (!FROM_PROGRAM(caller))
        return 0;
    uint64_t n = ++report->growths;
    if (n != refuse_growth && (!refuse_from || n < refuse_from))
        return 0;
    report->refused++;
    return 1;
}

void *malloc(size_t size)
{
    if (refuses(__builtin_return_address(0))) {
        errno = ENOMEM;
        return NULL;
    }
    return __libc_malloc(size);
}

void *calloc(size_t count, size_t size)
{
    if (refuses(__builtin_return_address(0))) {
        errno = ENOMEM;
        return NULL;
    }
    return __libc_calloc(count, size);
}

void *realloc(void *old, size_t size)
{
    if (refuses(__builtin_return_address(0))) {
        errno = ENOMEM;
        return NULL;
    }
    return __libc_realloc(old, size);
}

void *aligned_alloc(size_t alignment, size_t size)
{
    if (refuses(__builtin_return_address(0))) {
        errno = ENOMEM;
        return NULL;
    }
    return __libc_memalign(alignment, size);
}

void *memalign(size_t alignment, size_t size)
{
    if (refuses(__builtin_return_address(0))) {
        errno = ENOMEM;
        return NULL;
    }
    return __libc_memalign(alignment, size);
}

int posix_memalign(void **place, size_t alignment, size_t size)
{
    if (refuses(__builtin_return_address(0)))
        return ENOMEM;
    void *memory = __libc_memalign(alignment, size);
    if (!memory)
        return ENOMEM;
    *place = memory;
    return 0;
}

/* ---- the input ----------------------------------------------------------- */

static ssize_t read_fault(int cause)
{
    report->read_faults++;
    errno = cause;
    return -1;
}

static ssize_t read_given(ssize_t count)
{
    report->last_read = count > 0 ? (uint64_t)count : 0;
    report->read_bytes += report->last_read;
    return count;
}

/* Whether this call for a file, of this sort, fails. */
static int call_fails(uint64_t sort)
{
    if (++report->calls != fail_call)
        return 0;
    report->call_faults++;
    report->call_sort = sort;
    errno = EIO;
    return 1;
}

ssize_t read(int file, void *buffer, size_t size)
{
    if (file > 2 && call_fails(READ))
        return -1;
    if (file < 0 || (uint64_t)file != input)
        return syscall(SYS_read, file, buffer, size);
    uint64_t k = ++report->reads;
    if (k == fail_read)
        return read_fault(EIO);
    if (k == interrupt_read || k <= interrupt_reads)
        return read_fault(EINTR);
    if (short_read && size > short_read)
        size = short_read;
    if (endless) {
        memset(buffer, '#', size);
        return read_given((ssize_t)size);
    }
    return read_given(syscall(SYS_read, file, buffer, size));
}

/* ---- standard output ---------------------------------------------------- */

static ssize_t write_fault(int cause)
{
    report->write_faults++;
    errno = cause;
    return -1;
}

static ssize_t write_out(int file, const void *buffer, size_t size)
{
    if (file != 1)
        return syscall(SYS_write, file, buffer, size);
    uint64_t k = ++report->writes;
    if (k == interrupt_write)
        return write_fault(EINTR);
    if (k == empty_write) {
        report->write_faults++;
        return 0;
    }
    if (write_room_is_set && report->write_bytes >= write_room && size > 0)
        return write_fault(EIO);
    if (short_write && size > short_write)
        size = short_write;
    if (write_room_is_set && size > write_room - report->write_bytes)
        size = write_room - report->write_bytes;
    ssize_t count = syscall(SYS_write, file, buffer, size);
    if (count > 0)
        report->write_bytes += (uint64_t)count;
    return count;
}

ssize_t write(int file, const void *buffer, size_t size)
{
    return write_out(file, buffer, size);
}

ssize_t __write(int file, const void *buffer, size_t size)
{
    return write_out(file, buffer, size);
}

/* ---- files --------------------------------------------------------------- */

static int open_at(int folder, const char *path, int flags, mode_t mode)
{
    return call_fails(OPEN) ? -1 : (int)syscall(SYS_openat, folder, path, flags, mode);
}

int open(const char *path, int flags, ...)
{
    va_list rest;
    va_start(rest, flags);
    mode_t mode = va_arg(rest, mode_t);
    va_end(rest);
    return open_at(AT_FDCWD, path, flags, mode);
}

int openat(int folder, const char *path, int flags, ...)
{
    va_list rest;
    va_start(rest, flags);
    mode_t mode = va_arg(rest, mode_t);
    va_end(rest);
    return open_at(folder, path, flags, mode);
}

int statx(int folder, const char *path, int flags, unsigned int mask, struct statx *found)
{
    return call_fails(LOOK) ? -1 : (int)syscall(SYS_statx, folder, path, flags, mask, found);
}

ssize_t readlink(const char *path, char *target, size_t size)
{
    return call_fails(LINK) ? -1 : syscall(SYS_readlinkat, AT_FDCWD, path, target, size);
}

ssize_t getdents64(int folder, void *names, size_t size)
{
    return call_fails(NAMES) ? -1 : syscall(SYS_getdents64, folder, names, size);
}
