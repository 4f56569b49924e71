/* Faults for a program that runs with this library in front of the C library (LD_PRELOAD; Linux with glibc).
 *
 * It counts the program's requests for memory, its reads of standard input and its writes to standard output, and answers
 * those otherwise that the environment names. tools/faults.py compiles it, sets the environment and reads the counts. */
#define _GNU_SOURCE
#include <dlfcn.h>
#include <errno.h>
#include <pthread.h>
#include <signal.h>
#include <stdatomic.h>
#include <stdlib.h>
#include <sys/mman.h>
#include <sys/syscall.h>
#include <sys/time.h>
#include <unistd.h>

/* a run that takes longer is ended, in seconds */
#define MOST_SECONDS 120

extern void *__libc_malloc(size_t);
extern void *__libc_calloc(size_t, size_t);
extern void *__libc_realloc(void *, size_t);
extern void *__libc_memalign(size_t, size_t);

/* As tools/faults.py reads them. A call is needless that brings or asks for no byte, or comes after the end or a failure. */
struct counts {
    atomic_ullong requests, refused, reads, writes, needless;
};

/* Which call of an end is answered otherwise, from 1 (0: none): a negative answer is an error, another the most bytes of this
 * call. Each call gives or takes at most so many bytes (0: any number). */
struct end {
    unsigned long long call;
    long answer;
    size_t most;
    int over;
};

typedef int start_thread(pthread_t *, const pthread_attr_t *, void *(*)(void *), void *);

static start_thread *real_start;
static struct counts own_counts;
static struct counts *counts = &own_counts;
static struct end input, output;
static unsigned long long refused_request;
static int refuses_on;
/* how many bytes standard output takes until its reader is gone */
static size_t room = -1;

static long setting(const char *name, long otherwise)
{
    const char *text = getenv(name);
    return text ? strtol(text, NULL, 10) : otherwise;
}

static void nothing(int signal)
{
    (void)signal;
}

/* A signal that comes again and again, and that no call outlasts. */
static void interrupt_each(long milliseconds)
{
    struct sigaction action = {.sa_handler = nothing};
    struct itimerval timer = {{0, milliseconds * 1000}, {0, milliseconds * 1000}};
    sigaction(SIGALRM, &action, NULL);
    setitimer(ITIMER_REAL, &timer, NULL);
}

__attribute__((constructor)) static void begin(void)
{
    long file = setting("FAULT_COUNTS", -1);
    if (file >= 0) {
        void *shared = mmap(NULL, sizeof *counts, PROT_READ | PROT_WRITE, MAP_SHARED, file, 0);
        if (shared == MAP_FAILED)
            abort();
        counts = shared;
        close(file);
    }
    input = (struct end){setting("FAULT_READ", 0), setting("FAULT_READ_ANSWER", 0), setting("FAULT_READ_MOST", 0), 0};
    output = (struct end){setting("FAULT_WRITE", 0), setting("FAULT_WRITE_ANSWER", 0), setting("FAULT_WRITE_MOST", 0), 0};
    room = setting("FAULT_ROOM", -1);
    refuses_on = setting("FAULT_MEMORY_ON", 0);
    if (setting("FAULT_INTERRUPTS", 0))
        interrupt_each(setting("FAULT_INTERRUPTS", 0));
    else
        alarm(MOST_SECONDS);
    real_start = (start_thread *)dlsym(RTLD_NEXT, "pthread_create");
    counts->requests = 0;
    refused_request = setting("FAULT_MEMORY", 0);
}

/* Counts a request for memory, and answers whether it is refused. */
static int is_refused(void)
{
    unsigned long long request = ++counts->requests;
    if (!refused_request || request < refused_request || (request > refused_request && !refuses_on))
        return 0;
    counts->refused++;
    errno = ENOMEM;
    return 1;
}

void *malloc(size_t size)
{
    return is_refused() ? NULL : __libc_malloc(size);
}

void *calloc(size_t count, size_t size)
{
    return is_refused() ? NULL : __libc_calloc(count, size);
}

void *realloc(void *block, size_t size)
{
    return is_refused() ? NULL : __libc_realloc(block, size);
}

void *aligned_alloc(size_t alignment, size_t size)
{
    return is_refused() ? NULL : __libc_memalign(alignment, size);
}

int posix_memalign(void **block, size_t alignment, size_t size)
{
    void *got = aligned_alloc(alignment, size);
    if (!got)
        return ENOMEM;
    *block = got;
    return 0;
}

/* A thread asks for memory too, its stack. */
int pthread_create(pthread_t *thread, const pthread_attr_t *attributes, void *(*body)(void *), void *argument)
{
    return is_refused() ? EAGAIN : real_start(thread, attributes, body, argument);
}

/* How many bytes a call of this number asks for, or -1 with errno where it fails. */
static ssize_t asked(struct end *end, unsigned long long call, size_t size)
{
    size_t most = end->most && end->most < size ? end->most : size;
    if (end->over || size == 0)
        counts->needless++;
    if (call != end->call)
        return most;
    if (end->answer >= 0)
        return (size_t)end->answer < most ? (size_t)end->answer : most;
    errno = -end->answer;
    return -1;
}

ssize_t read(int file, void *bytes, size_t size)
{
    if (file != STDIN_FILENO)
        return syscall(SYS_read, file, bytes, size);
    ssize_t most = asked(&input, ++counts->reads, size);
    ssize_t got = most > 0 ? syscall(SYS_read, file, bytes, most) : most;
    input.over |= got <= 0;
    return got;
}

/* How many of so many bytes there is room for: -1, with errno and the signal of a pipe that nobody reads, where there is none. */
static ssize_t fitting(ssize_t size)
{
    if (size <= 0 || (size_t)size <= room)
        return size;
    if (room > 0)
        return room;
    raise(SIGPIPE);
    errno = EPIPE;
    return -1;
}

ssize_t write(int file, const void *bytes, size_t size)
{
    if (file != STDOUT_FILENO)
        return syscall(SYS_write, file, bytes, size);
    ssize_t most = fitting(asked(&output, ++counts->writes, size));
    ssize_t put = most > 0 ? syscall(SYS_write, file, bytes, most) : most;
    output.over |= put <= 0;
    if (put > 0)
        room -= put;
    return put;
}
