/* For failing_reads.py, by LD_PRELOAD: reads of standard input fail where FAILING_READS says so. It is a list of numbers, three for each
   failure: the call of `read` on descriptor 0 at which it begins, counted from 1 with those that failed, how many calls fail from there on, and
   the errno. */
#define _GNU_SOURCE
#include <dlfcn.h>
#include <errno.h>
#include <stdlib.h>
#include <unistd.h>

ssize_t read(int fd, void *buf, size_t n) {
    static ssize_t (*next)(int, void *, size_t);
    static long calls;
    if (!next) next = dlsym(RTLD_NEXT, "read");
    if (fd == 0) {
        calls++;
        for (char *at = getenv("FAILING_READS"), *end; at && *at; at = end) {
            long from = strtol(at, &end, 10), count = strtol(end, &end, 10), error = strtol(end, &end, 10);
            if (from <= calls && calls < from + count) {
                errno = error;
                return -1;
            }
        }
    }
    return next(fd, buf, n);
}
