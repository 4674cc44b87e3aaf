/* Lets calls of the system fail, for tools/failing: preloaded into a program, it has standard input give, and standard output take, at
 * most so many bytes a call, interrupts each of their calls once, lets one of them fail, and refuses the program requests for memory.
 * As the program ends it writes how many there were of each to a file, how many threads were made, and how many of them there were at once.
 *
 *     FAILING_MOST         how many bytes a call gives or takes at most
 *     FAILING_READ         the number of the read that fails, from 1; those that follow would not
 *     FAILING_WRITE        the same of a write
 *     FAILING_INTERRUPTED  1: each read and each write is interrupted before it gives or takes anything, and not counted
 *     FAILING_MEMORY       the number of the first request that is refused
 *     FAILING_REQUESTS     how many are refused then; where nothing is said, all that follow
 *     FAILING_COUNTS       the file: reads, writes, requests, how many requests were refused, threads that were made, and at
 *                          once, interruptions
 *
 * Requests are those that the program's own code makes: what the C library asks for itself is granted. It prints nothing.
 */
#define _GNU_SOURCE
#include <dlfcn.h>
#include <errno.h>
#include <fcntl.h>
#include <link.h>
#include <pthread.h>
#include <stdatomic.h>
#include <stdint.h>
#include <stdio.h>
#include <stdlib.h>
#include <sys/syscall.h>
#include <sys/uio.h>
#include <unistd.h>

void *__libc_malloc(size_t size);
void *__libc_calloc(size_t count, size_t size);
void *__libc_realloc(void *old, size_t size);
void *__libc_memalign(size_t alignment, size_t size);

static size_t most = SIZE_MAX;
static unsigned long failing_read, failing_write, first_refused, most_refused = -1UL;
static unsigned long interrupted, interruptions, reads, writes, requests, refused;
static atomic_long threads, alive, together;
static uintptr_t begins, ends;
static int counts = -1;

static unsigned long number_in(const char *name, unsigned long otherwise)
{
    const char *text = getenv(name);
    return text ? strtoul(text, NULL, 10) : otherwise;
}

/* Where the program's own code lies: it is the first object of the process. */
static int find(struct dl_phdr_info *info, size_t size, void *unused)
{
    (void)size, (void)unused;
    begins = UINTPTR_MAX;
    for (int i = 0; i < info->dlpi_phnum; i++) {
        const ElfW(Phdr) *part = &info->dlpi_phdr[i];
        uintptr_t from = info->dlpi_addr + part->p_vaddr;
        if (part->p_type != PT_LOAD || !(part->p_flags & PF_X))
            continue;
        if (from < begins)
            begins = from;
        if (from + part->p_memsz > ends)
            ends = from + part->p_memsz;
    }
    return 1;
}

__attribute__((constructor)) static void begin(void)
{
    const char *file = getenv("FAILING_COUNTS");
    dl_iterate_phdr(find, NULL);
    most = number_in("FAILING_MOST", SIZE_MAX);
    failing_read = number_in("FAILING_READ", 0);
    failing_write = number_in("FAILING_WRITE", 0);
    interrupted = number_in("FAILING_INTERRUPTED", 0);
    first_refused = number_in("FAILING_MEMORY", 0);
    most_refused = number_in("FAILING_REQUESTS", -1UL);
    if (file)
        counts = open(file, O_WRONLY | O_CREAT | O_TRUNC | O_CLOEXEC, 0600);
}

__attribute__((destructor)) static void end(void)
{
    char text[128];
    int length = snprintf(text, sizeof text, "%lu %lu %lu %lu %ld %ld %lu\n", reads, writes, requests, refused, threads, together,
                          interruptions);
    if (counts >= 0 && length > 0)
        syscall(SYS_write, counts, text, (size_t)length);
    counts = -1;
}

/* The program may end so, of which destructors are not told. */
void _exit(int status)
{
    end();
    for (;;)
        syscall(SYS_exit_group, status);
}

/* Whether this call is interrupted: the one after it is not. */
static int is_interrupted(void)
{
    static int last;
    last = interrupted && !last;
    if (last) {
        interruptions++;
        errno = EINTR;
    }
    return last;
}

ssize_t read(int file, void *bytes, size_t length)
{
    if (file != STDIN_FILENO)
        return syscall(SYS_read, file, bytes, length);
    if (is_interrupted())
        return -1;
    if (++reads == failing_read) {
        errno = EIO;
        return -1;
    }
    return syscall(SYS_read, file, bytes, length < most ? length : most);
}

ssize_t write(int file, const void *bytes, size_t length)
{
    if (file != STDOUT_FILENO)
        return syscall(SYS_write, file, bytes, length);
    if (is_interrupted())
        return -1;
    if (++writes == failing_write) {
        errno = EIO;
        return -1;
    }
    return syscall(SYS_write, file, bytes, length < most ? length : most);
}

ssize_t __write(int file, const void *bytes, size_t length)
{
    return write(file, bytes, length);
}

/* The first piece that is not empty, as a system may that gives or takes less than was asked for. */
static const struct iovec *first_of(const struct iovec *pieces, int count)
{
    int i = 0;
    while (i + 1 < count && pieces[i].iov_len == 0)
        i++;
    return &pieces[i];
}

ssize_t readv(int file, const struct iovec *pieces, int count)
{
    if (file != STDIN_FILENO || count < 1)
        return syscall(SYS_readv, file, pieces, count);
    return read(file, first_of(pieces, count)->iov_base, first_of(pieces, count)->iov_len);
}

ssize_t writev(int file, const struct iovec *pieces, int count)
{
    if (file != STDOUT_FILENO || count < 1)
        return syscall(SYS_writev, file, pieces, count);
    return write(file, first_of(pieces, count)->iov_base, first_of(pieces, count)->iov_len);
}

/* Whether a request is refused that returns to this place. */
static int is_refused(const void *place)
{
    if ((uintptr_t)place < begins || (uintptr_t)place >= ends)
        return 0;
    if (++requests < first_refused || first_refused == 0 || refused == most_refused)
        return 0;
    refused++;
    errno = ENOMEM;
    return 1;
}

void *malloc(size_t size)
{
    return is_refused(__builtin_return_address(0)) ? NULL : __libc_malloc(size);
}

void *calloc(size_t count, size_t size)
{
    return is_refused(__builtin_return_address(0)) ? NULL : __libc_calloc(count, size);
}

void *realloc(void *old, size_t size)
{
    return is_refused(__builtin_return_address(0)) ? NULL : __libc_realloc(old, size);
}

void *aligned_alloc(size_t alignment, size_t size)
{
    return is_refused(__builtin_return_address(0)) ? NULL : __libc_memalign(alignment, size);
}

int posix_memalign(void **made, size_t alignment, size_t size)
{
    if (is_refused(__builtin_return_address(0)))
        return ENOMEM;
    *made = __libc_memalign(alignment, size);
    return *made ? 0 : ENOMEM;
}

int pthread_create(pthread_t *made, const pthread_attr_t *how, void *(*work)(void *), void *with)
{
    int (*create)(pthread_t *, const pthread_attr_t *, void *(*)(void *), void *) = dlsym(RTLD_NEXT, "pthread_create");
    int failed = create(made, how, work, with);
    if (!failed) {
        long now = ++alive, most = together;
        threads++;
        while (now > most && !atomic_compare_exchange_weak(&together, &most, now))
            ;
    }
    return failed;
}

int pthread_join(pthread_t thread, void **came)
{
    int (*join)(pthread_t, void **) = dlsym(RTLD_NEXT, "pthread_join");
    int failed = join(thread, came);
    if (!failed)
        alive--;
    return failed;
}
