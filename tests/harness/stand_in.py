"""A C library that stands before the system's in the program under test. It refuses memory and threads, counts the
threads that are started, and reports how many processors there are, whatever else the machine does."""

import os
import shutil
import subprocess

from harness import call

# Of the calls of KIND it refuses the one of the number in REFUSED, after so many microseconds as PAUSE says, and leaves
# a file of the name in SAID once it did. Of the kind `a` is each allocation, of `w` each after a write that failed, of
# `s` each start of a thread, of `o` each opening of a file, which wants memory of the system. The file of the name in STARTED gets a byte for each thread that is started, that in
# ALLOCATED one for each hundred allocations. There are as many processors as PROCESSORS says, none of a control group,
# and STAT is read in the place of /proc/stat.
SOURCE = r'''
#define _GNU_SOURCE
#include <dlfcn.h>
#include <errno.h>
#include <fcntl.h>
#include <pthread.h>
#include <sched.h>
#include <stdarg.h>
#include <stdlib.h>
#include <string.h>
#include <unistd.h>

static unsigned long wanted, seen;
static int has_failed;
static char kind;

static void leave(const char *name) {
    int file = open(name, O_CREAT | O_WRONLY | O_APPEND, 0600);
    if (write(file, "+", 1) == 1) close(file);
}

static void count(void) {
    static unsigned long allocations;
    static const char *name;
    if (!name) name = getenv("ALLOCATED") ? getenv("ALLOCATED") : "";
    if (*name && __atomic_add_fetch(&allocations, 1, __ATOMIC_SEQ_CST) % 100 == 0) leave(name);
}

static int is_refused(char called) {
    if (called == 'a') count();
    if (!kind) {
        const char *asked = getenv("KIND");
        kind = asked ? *asked : '-';
        if (asked) wanted = strtoul(getenv("REFUSED"), 0, 10);
    }
    if (called == 'a' && kind == 'w' && __atomic_load_n(&has_failed, __ATOMIC_SEQ_CST)) called = 'w';
    if (called != kind || __atomic_add_fetch(&seen, 1, __ATOMIC_SEQ_CST) != wanted) return 0;
    leave(getenv("SAID"));
    if (getenv("PAUSE")) usleep(strtoul(getenv("PAUSE"), 0, 10));
    return 1;
}

void *malloc(size_t size) {
    static void *(*next)(size_t);
    if (!next) next = dlsym(RTLD_NEXT, "malloc");
    return is_refused('a') ? 0 : next(size);
}

void *realloc(void *old, size_t size) {
    static void *(*next)(void *, size_t);
    if (!next) next = dlsym(RTLD_NEXT, "realloc");
    return is_refused('a') ? 0 : next(old, size);
}

int pthread_create(pthread_t *thread, const pthread_attr_t *how, void *(*work)(void *), void *with) {
    static int (*next)(pthread_t *, const pthread_attr_t *, void *(*)(void *), void *);
    if (!next) next = dlsym(RTLD_NEXT, "pthread_create");
    if (is_refused('s')) return EAGAIN;
    if (getenv("STARTED")) leave(getenv("STARTED"));
    return next(thread, how, work, with);
}

static ssize_t written(ssize_t taken) {
    if (taken < 0) __atomic_store_n(&has_failed, 1, __ATOMIC_SEQ_CST);
    return taken;
}

ssize_t write(int file, const void *bytes, size_t count) {
    static ssize_t (*next)(int, const void *, size_t);
    if (!next) next = dlsym(RTLD_NEXT, "write");
    return written(next(file, bytes, count));
}

ssize_t __write(int file, const void *bytes, size_t count) {
    return write(file, bytes, count);
}

int open(const char *name, int how, ...) {
    static int (*next)(const char *, int, ...);
    va_list rest;
    if (!next) next = dlsym(RTLD_NEXT, "open");
    va_start(rest, how);
    int mode = va_arg(rest, int);
    va_end(rest);
    if (is_refused('o')) {
        errno = ENOMEM;
        return -1;
    }
    if (getenv("STAT") && !strcmp(name, "/proc/stat")) name = getenv("STAT");
    if (getenv("STAT") && !strcmp(name, "/proc/self/cgroup")) {
        errno = ENOENT;
        return -1;
    }
    return next(name, how, mode);
}

int sched_getaffinity(pid_t process, size_t size, cpu_set_t *set) {
    static int (*next)(pid_t, size_t, cpu_set_t *);
    if (!next) next = dlsym(RTLD_NEXT, "sched_getaffinity");
    int status = next(process, size, set);
    if (status == 0 && getenv("PROCESSORS")) {
        memset(set, 0, size);
        for (int it = 0; it < atoi(getenv("PROCESSORS")); it++) CPU_SET_S(it, size, set);
    }
    return status;
}
'''

NO_COMPILER = 'no C compiler is there'


class StandIn:
    """The library, in a folder."""

    def __init__(self, folder):
        """Compiles it by a compiler that is there; `is_there` tells whether there is one."""
        self.folder = folder
        compiler = next(filter(None, map(shutil.which, ('gcc', 'cc', 'clang'))), None)
        self.is_there = compiler is not None
        if self.is_there:
            (folder / 'stand_in.c').write_text(SOURCE)
            words = [compiler, '-shared', '-fPIC', '-o', folder / 'stand_in.so', folder / 'stand_in.c']
            subprocess.run(words, check=True)

    def environment(self, **names):
        """The environment of a call by the library, with these names."""
        return {**os.environ, 'LD_PRELOAD': str(self.folder / 'stand_in.so'), **{name: str(value) for name, value in names.items()}}

    def free_processors(self):
        """From now on all that this process calls finds eight processors, whatever else the machine does."""
        if self.is_there:
            os.environ.update(self.environment(**self.processors(8)))
        else:
            print(f'{NO_COMPILER}: runs by several workers may start fewer threads', flush=True)

    def processors(self, count, busy=0):
        """The names by which so many processors are there, of which other programs keep some busy."""
        stat = self.folder / f'stat-{count}-{busy}'
        stat.write_text(''.join(f'cpu{it} 0\n' for it in ['', *range(count)]) + f'procs_running {1 + busy}\n')
        return {'PROCESSORS': count, 'STAT': stat}

    def counted(self, words, name='STARTED', **names):
        """What a call of these words answers, and how much of what the file of this name counts there was."""
        path = self.folder / 'counted'
        path.unlink(missing_ok=True)
        ran = call(words, env=self.environment(**names, **{name: path}))
        return ran, path.stat().st_size if path.exists() else 0
