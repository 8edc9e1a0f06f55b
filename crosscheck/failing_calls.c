/* Calls that fail where they are told to, for hostile.py, which loads them by LD_PRELOAD.

   FAIL_MARK     a file that gets one byte when this is loaded, one at each call that fails, one at
                 the first that is cut short, and one when a file takes the place of another
   FAIL_READ     the path of a file; its reads give FAIL_AT bytes and then fail
   FAIL_THEN     the path of a file that takes the place of that one once its bytes were read
   FAIL_WRITE    a path, or the number of a descriptor; its writes take FAIL_AT bytes and then fail
   FAIL_AT       how many bytes go before the failure
   FAIL_ERRNO    the number of the error
   FAIL_PIECE    the most bytes that one read or write of those takes; none fails then
   FAIL_REQUEST  the number, from 1, of the request for memory that is refused
   FAIL_ON       if set, all requests behind it are refused, too
*/
#define _GNU_SOURCE
#include <dlfcn.h>
#include <errno.h>
#include <fcntl.h>
#include <stdio.h>
#include <stdlib.h>
#include <string.h>
#include <sys/stat.h>
#include <sys/syscall.h>
#include <sys/uio.h>
#include <unistd.h>

static const char *mark_path, *read_path, *then_path, *write_path;
static long fail_at, piece, request, requests, is_armed, fails_on, was_cut, error_number;
static long bytes_read, bytes_written;

static void mark(void) {
    int kept = errno;
    long file;
    if (mark_path == NULL) return;
    file = syscall(SYS_openat, AT_FDCWD, mark_path, O_WRONLY | O_CREAT | O_APPEND, 0644);
    if (file >= 0) {
        syscall(SYS_write, file, "x", 1L);
        syscall(SYS_close, file);
    }
    errno = kept;
}

static long number_in(const char *name, long otherwise) {
    const char *text = getenv(name);
    return text == NULL ? otherwise : atol(text);
}

__attribute__((constructor)) static void begin(void) {
    mark_path = getenv("FAIL_MARK");
    read_path = getenv("FAIL_READ");
    then_path = getenv("FAIL_THEN");
    write_path = getenv("FAIL_WRITE");
    fail_at = number_in("FAIL_AT", 0);
    error_number = number_in("FAIL_ERRNO", EIO);
    piece = number_in("FAIL_PIECE", 0);
    request = number_in("FAIL_REQUEST", 0);
    fails_on = getenv("FAIL_ON") != NULL;
    mark();
    is_armed = 1;
}

static int is_target(int file, const char *target) {
    struct stat one, other;
    int kept = errno, is_same;
    if (target == NULL) return 0;
    if (target[0] >= '0' && target[0] <= '9') return file == atoi(target);
    is_same = fstat(file, &one) == 0 && stat(target, &other) == 0
              && one.st_dev == other.st_dev && one.st_ino == other.st_ino;
    errno = kept;
    return is_same;
}

/* How many of these bytes may go, with so many gone before; -1 where the call fails. */
static long allowed(size_t count, long gone) {
    long left = fail_at - gone;
    if (piece > 0 && (long)count > piece) {
        if (!was_cut) mark();
        was_cut = 1;
        return piece;
    }
    if (piece > 0) return (long)count;
    if (count == 0) return 0;
    if (left <= 0) {
        mark();
        errno = (int)error_number;
        return -1;
    }
    return (long)count < left ? (long)count : left;
}

/* Where all bytes of the file were read another one takes its place, once. */
static void replace_read(int file) {
    struct stat read_file;
    if (then_path == NULL || fstat(file, &read_file) != 0 || bytes_read < read_file.st_size) return;
    mark();
    rename(then_path, read_path);
    then_path = NULL;
}

ssize_t read(int file, void *bytes, size_t count) {
    ssize_t (*next)(int, void *, size_t) = dlsym(RTLD_NEXT, "read");
    long most, done;
    if (!is_target(file, read_path)) return next(file, bytes, count);
    most = allowed(count, bytes_read);
    if (most < 0) return -1;
    done = next(file, bytes, (size_t)most);
    if (done > 0) bytes_read += done;
    replace_read(file);
    return done;
}

ssize_t readv(int file, const struct iovec *pieces, int count) {
    ssize_t (*next)(int, const struct iovec *, int) = dlsym(RTLD_NEXT, "readv");
    if (!is_target(file, read_path) || count < 1) return next(file, pieces, count);
    return read(file, pieces[0].iov_base, pieces[0].iov_len);
}

ssize_t pread(int file, void *bytes, size_t count, off_t place) {
    ssize_t (*next)(int, void *, size_t, off_t) = dlsym(RTLD_NEXT, "pread");
    long most;
    if (!is_target(file, read_path)) return next(file, bytes, count, place);
    most = allowed(count, (long)place);
    return most < 0 ? -1 : next(file, bytes, (size_t)most, place);
}

ssize_t pread64(int file, void *bytes, size_t count, off64_t place) {
    return pread(file, bytes, count, (off_t)place);
}

ssize_t write(int file, const void *bytes, size_t count) {
    ssize_t (*next)(int, const void *, size_t) = dlsym(RTLD_NEXT, "write");
    long most, done;
    if (!is_target(file, write_path)) return next(file, bytes, count);
    most = allowed(count, bytes_written);
    if (most < 0) return -1;
    done = next(file, bytes, (size_t)most);
    if (done > 0) bytes_written += done;
    return done;
}

ssize_t writev(int file, const struct iovec *pieces, int count) {
    ssize_t (*next)(int, const struct iovec *, int) = dlsym(RTLD_NEXT, "writev");
    if (!is_target(file, write_path) || count < 1) return next(file, pieces, count);
    return write(file, pieces[0].iov_base, pieces[0].iov_len);
}

static int is_refused(void) {
    if (!is_armed || request == 0) return 0;
    requests++;
    if (fails_on ? requests < request : requests != request) return 0;
    mark();
    errno = ENOMEM;
    return 1;
}

void *malloc(size_t count) {
    static void *(*next)(size_t);
    if (is_refused()) return NULL;
    if (next == NULL) next = dlsym(RTLD_NEXT, "malloc");
    return next(count);
}

void *realloc(void *bytes, size_t count) {
    static void *(*next)(void *, size_t);
    if (is_refused()) return NULL;
    if (next == NULL) next = dlsym(RTLD_NEXT, "realloc");
    return next(bytes, count);
}

void *calloc(size_t count, size_t size) {
    static void *(*next)(size_t, size_t);
    static int is_finding;
    if (is_refused()) return NULL;
    if (next == NULL) {
        if (is_finding) return NULL;
        is_finding = 1;
        next = dlsym(RTLD_NEXT, "calloc");
        is_finding = 0;
    }
    return next(count, size);
}
