"""A library that stands before the C library's and has calls of the system fail now and then, or take long, for
the checks of tests/server.
"""
import contextlib
import pathlib
import subprocess
import tempfile

# Each fails at every so manyth call, where the word of its name says how many that is. Of epoll_ctl those
# count that add a file. A recv that finds nothing takes so many microseconds, and so does a send of a thousand bytes
# or more, and a look of epoll_wait that waits for good or not at all: what comes meanwhile is told too. Each send
# adds a byte to a file, and takes at most so many bytes. A file of eight bytes has the number of the next request for
# memory that is refused, or 0.
SOURCE = r"""
#define _GNU_SOURCE
#include <dlfcn.h>
#include <errno.h>
#include <fcntl.h>
#include <poll.h>
#include <stdatomic.h>
#include <stdlib.h>
#include <sys/epoll.h>
#include <sys/mman.h>
#include <sys/socket.h>
#include <unistd.h>

static long send_fails_at;
static long add_fails_at;
static long moment;
static long send_takes;
static long long_send_lasts;
static long look_lasts;
static atomic_long *refused;
static int told = -1;
static atomic_long sends;
static atomic_long adds;

static long number_of(const char *word) {
    char *said = getenv(word);
    return said ? atol(said) : 0;
}

__attribute__((constructor)) static void begin(void) {
    send_fails_at = number_of("SEND_FAILS_AT");
    add_fails_at = number_of("ADD_FAILS_AT");
    moment = number_of("RECV_TAKES");
    send_takes = number_of("SEND_TAKES");
    long_send_lasts = number_of("LONG_SEND_LASTS");
    look_lasts = number_of("LOOK_LASTS");
    if (getenv("SENDS_TOLD")) {
        told = open(getenv("SENDS_TOLD"), O_WRONLY | O_APPEND | O_CREAT, 0600);
    }
    if (getenv("REFUSED_IN")) {
        void *at = mmap(NULL, sizeof *refused, PROT_READ | PROT_WRITE, MAP_SHARED, open(getenv("REFUSED_IN"), O_RDWR), 0);
        refused = at == MAP_FAILED ? NULL : at;
    }
}

static int is_refused(void) { return refused && *refused > 0 && atomic_fetch_sub(refused, 1) == 1; }

extern void *__libc_malloc(size_t);
extern void *__libc_realloc(void *, size_t);

void *malloc(size_t size) { return is_refused() ? NULL : __libc_malloc(size); }

void *realloc(void *old, size_t size) { return is_refused() ? NULL : __libc_realloc(old, size); }

static int fails(atomic_long *calls, long at) { return at && atomic_fetch_add(calls, 1) % at == at - 1; }

ssize_t send(int file, const void *bytes, size_t count, int flags) {
    ssize_t (*real)(int, const void *, size_t, int) = dlsym(RTLD_NEXT, "send");
    if (fails(&sends, send_fails_at)) {
        errno = EAGAIN;
        return -1;
    }
    if (told >= 0 && write(told, "s", 1) < 0) {
        return -1;
    }
    if (count >= 1000 && long_send_lasts) {
        usleep(long_send_lasts);
    }
    return real(file, bytes, send_takes && (size_t)send_takes < count ? (size_t)send_takes : count, flags);
}

ssize_t recv(int file, void *bytes, size_t count, int flags) {
    ssize_t (*real)(int, void *, size_t, int) = dlsym(RTLD_NEXT, "recv");
    ssize_t had = real(file, bytes, count, flags);
    if (had < 0 && moment) {
        int why = errno;
        usleep(moment);
        errno = why;
    }
    return had;
}

int epoll_ctl(int looker, int what, int file, struct epoll_event *event) {
    int (*real)(int, int, int, struct epoll_event *) = dlsym(RTLD_NEXT, "epoll_ctl");
    if (what == EPOLL_CTL_ADD && fails(&adds, add_fails_at)) {
        errno = ENOMEM;
        return -1;
    }
    return real(looker, what, file, event);
}

int epoll_wait(int file, struct epoll_event *events, int most, int within) {
    int (*real)(int, struct epoll_event *, int, int) = dlsym(RTLD_NEXT, "epoll_wait");
    if (look_lasts && within <= 0) {
        struct pollfd one = {file, POLLIN, 0};
        if (within < 0 && poll(&one, 1, within) < 0) {
            return -1;
        }
        usleep(look_lasts);
        within = 0;
    }
    return real(file, events, most, within);
}
"""


@contextlib.contextmanager
def under_failing(**words):
    """The words under which a program runs whose calls fail: SEND_FAILS_AT, which then says that nothing can be
    taken now, and ADD_FAILS_AT, which says that there is no memory; or take long: RECV_TAKES, LONG_SEND_LASTS and
    LOOK_LASTS; or take few bytes: SEND_TAKES; or are told in a file, a byte for each send: SENDS_TOLD; or of whose
    requests for memory one is refused, by its number in a file: REFUSED_IN."""
    with tempfile.TemporaryDirectory() as folder:
        source, library = (pathlib.Path(folder) / name for name in ("failing.c", "failing.so"))
        source.write_text(SOURCE, encoding="ascii")
        subprocess.run(["gcc", "-shared", "-fPIC", "-O1", "-o", library, source], check=True)
        yield "env", f"LD_PRELOAD={library}", *(f"{name}={number}" for name, number in words.items())
