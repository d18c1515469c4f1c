// Records the calls that change files below a folder, in the order in which they are made.
//
// tools/powerloss compiles it, and puts it before the C library (LD_PRELOAD). Each call is made, and if it succeeded,
// it is written to a record: a head, a path, and bytes. One lock is held over a call and its record, so the order is that
// of the calls, whatever thread makes them. It reads four variables of the environment:
//
//   POWERLOSS_RECORD   the file to which the record is appended
//   POWERLOSS_UNDER    the folder; calls on other files are made and not recorded
//   POWERLOSS_STOP     the process ends before its recorded call of this number, from 1 (0: it does not)
//   POWERLOSS_SWALLOW  `files`, `folders` or `all`: flushes of these report success, and are neither made nor recorded
#define _GNU_SOURCE
#include <errno.h>
#include <fcntl.h>
#include <pthread.h>
#include <stdarg.h>
#include <stdint.h>
#include <stdio.h>
#include <stdlib.h>
#include <string.h>
#include <sys/stat.h>
#include <sys/syscall.h>
#include <sys/uio.h>
#include <unistd.h>

enum { MOST_PATH = 8192 };
struct head {
  int32_t kind, file;
  int64_t at;
  uint32_t path, data;
};
static pthread_mutex_t lock = PTHREAD_MUTEX_INITIALIZER;
static int record = -1;
static long calls;

static const char *setting(const char *name) {
  const char *value = getenv(name);
  return value ? value : "";
}

// The absolute path of a path that is relative to a folder, without a trailing slash.
static void absolute(int folder, const char *path, char *into) {
  char base[MOST_PATH] = "", link[64];
  if (path[0] != '/') {
    snprintf(link, sizeof link, folder == AT_FDCWD ? "/proc/self/cwd" : "/proc/self/fd/%d", folder);
    ssize_t length = syscall(SYS_readlinkat, AT_FDCWD, link, base, sizeof base - 1);
    base[length < 0 ? 0 : length] = 0;
  }
  snprintf(into, MOST_PATH, "%.4000s%s%.4000s", base, path[0] == '/' ? "" : "/", path);
  for (size_t end = strlen(into); end > 1 && into[end - 1] == '/';) into[--end] = 0;
}

// The path of an open file.
static void path_of(int file, char *into) { absolute(file, "", into); }

static int is_under(const char *path) {
  const char *folder = setting("POWERLOSS_UNDER");
  size_t length = strlen(folder);
  return length && !strncmp(path, folder, length) && (path[length] == '/' || !path[length]);
}

// Ends the process if this is the call before which it has to stop.
static void may_stop(void) {
  if (++calls == atol(setting("POWERLOSS_STOP")))
    for (;;) syscall(SYS_exit_group, 137);
}

static void put(const void *bytes, size_t length) {
  for (size_t done = 0; done < length;) {
    ssize_t count = syscall(SYS_write, record, (const char *)bytes + done, length - done);
    if (count <= 0) for (;;) syscall(SYS_exit_group, 99);
    done += count;
  }
}

static void note(char kind, int file, int64_t at, const char *path, const void *data, size_t length) {
  if (record < 0) record = syscall(SYS_openat, AT_FDCWD, setting("POWERLOSS_RECORD"), O_WRONLY | O_CREAT | O_APPEND | O_CLOEXEC, 0644);
  struct head head = {kind, file, at, strlen(path), length};
  put(&head, sizeof head);
  put(path, head.path);
  put(data, length);
}

static int open_at(int folder, const char *path, int flags, int mode) {
  char whole[MOST_PATH];
  absolute(folder, path, whole);
  if (!is_under(whole)) return syscall(SYS_openat, folder, path, flags, mode);
  pthread_mutex_lock(&lock);
  if (flags & (O_CREAT | O_TRUNC)) may_stop();
  int file = syscall(SYS_openat, folder, path, flags, mode), error = errno;
  if (file >= 0) note('o', file, flags, whole, "", 0);
  pthread_mutex_unlock(&lock);
  errno = error;
  return file;
}

static ssize_t write_at(int file, const void *bytes, size_t length, off_t at) {
  char whole[MOST_PATH];
  path_of(file, whole);
  if (!is_under(whole)) return at < 0 ? syscall(SYS_write, file, bytes, length) : syscall(SYS_pwrite64, file, bytes, length, at);
  pthread_mutex_lock(&lock);
  may_stop();
  struct stat status;
  off_t from = at >= 0 ? at : syscall(SYS_lseek, file, 0, SEEK_CUR);
  if (at < 0 && fcntl(file, F_GETFL) & O_APPEND && !fstat(file, &status)) from = status.st_size;
  ssize_t count = at < 0 ? syscall(SYS_write, file, bytes, length) : syscall(SYS_pwrite64, file, bytes, length, at);
  int error = errno;
  if (count > 0) note('w', file, from, "", bytes, count);
  pthread_mutex_unlock(&lock);
  errno = error;
  return count;
}

static int flush(int number, int file) {
  char whole[MOST_PATH];
  struct stat status;
  path_of(file, whole);
  if (!is_under(whole) || fstat(file, &status)) return syscall(number, file);
  const char *swallowed = setting("POWERLOSS_SWALLOW"), *kind = S_ISDIR(status.st_mode) ? "folders" : "files";
  if (!strcmp(swallowed, "all") || !strcmp(swallowed, kind)) return 0;
  pthread_mutex_lock(&lock);
  may_stop();
  int done = syscall(number, file), error = errno;
  if (!done) note('f', file, 0, whole, "", 0);
  pthread_mutex_unlock(&lock);
  errno = error;
  return done;
}

// Makes a call on one or two names, and records it with its kind.
static int change(char kind, int folder, const char *path, int other_folder, const char *other, long number, long a, long b, long c, long d, long e) {
  char whole[MOST_PATH], to[MOST_PATH] = "";
  absolute(folder, path, whole);
  if (other) absolute(other_folder, other, to);
  if (!is_under(whole) && !(other && is_under(to))) return syscall(number, a, b, c, d, e);
  pthread_mutex_lock(&lock);
  may_stop();
  int done = syscall(number, a, b, c, d, e), error = errno;
  if (!done) note(kind, -1, 0, whole, to, strlen(to));
  pthread_mutex_unlock(&lock);
  errno = error;
  return done;
}

// A call that the model of the disk does not have.
static void unknown(const char *name) { note('?', -1, 0, name, "", 0); }

int openat(int folder, const char *path, int flags, ...) {
  va_list rest;
  va_start(rest, flags);
  int mode = va_arg(rest, int);
  va_end(rest);
  return open_at(folder, path, flags, mode);
}
int open(const char *path, int flags, ...) {
  va_list rest;
  va_start(rest, flags);
  int mode = va_arg(rest, int);
  va_end(rest);
  return open_at(AT_FDCWD, path, flags, mode);
}
int open64(const char *path, int flags, ...) __attribute__((alias("open")));
int openat64(int folder, const char *path, int flags, ...) __attribute__((alias("openat")));
int creat(const char *path, mode_t mode) { return open_at(AT_FDCWD, path, O_WRONLY | O_CREAT | O_TRUNC, mode); }
ssize_t write(int file, const void *bytes, size_t length) { return write_at(file, bytes, length, -1); }
ssize_t __write(int file, const void *bytes, size_t length) __attribute__((alias("write")));
ssize_t pwrite(int file, const void *bytes, size_t length, off_t at) { return write_at(file, bytes, length, at); }
ssize_t pwrite64(int file, const void *bytes, size_t length, off_t at) __attribute__((alias("pwrite")));
ssize_t writev(int file, const struct iovec *parts, int count) {
  ssize_t whole = 0;
  for (int i = 0; i < count; i++) {
    ssize_t done = write_at(file, parts[i].iov_base, parts[i].iov_len, -1);
    if (done < 0) return whole ? whole : -1;
    whole += done;
    if ((size_t)done < parts[i].iov_len) break;
  }
  return whole;
}
int fsync(int file) { return flush(SYS_fsync, file); }
int fdatasync(int file) { return flush(SYS_fdatasync, file); }
int mkdir(const char *path, mode_t mode) { return change('d', AT_FDCWD, path, 0, NULL, SYS_mkdirat, AT_FDCWD, (long)path, mode, 0, 0); }
int mkdirat(int folder, const char *path, mode_t mode) { return change('d', folder, path, 0, NULL, SYS_mkdirat, folder, (long)path, mode, 0, 0); }
int unlink(const char *path) { return change('u', AT_FDCWD, path, 0, NULL, SYS_unlinkat, AT_FDCWD, (long)path, 0, 0, 0); }
int unlinkat(int folder, const char *path, int flags) { return change('u', folder, path, 0, NULL, SYS_unlinkat, folder, (long)path, flags, 0, 0); }
int rmdir(const char *path) { return change('u', AT_FDCWD, path, 0, NULL, SYS_unlinkat, AT_FDCWD, (long)path, AT_REMOVEDIR, 0, 0); }
int remove(const char *path) { return unlink(path) && errno == EISDIR ? rmdir(path) : 0; }
int rename(const char *from, const char *to) { return change('r', AT_FDCWD, from, AT_FDCWD, to, SYS_renameat2, AT_FDCWD, (long)from, AT_FDCWD, (long)to, 0); }
int renameat(int a, const char *from, int b, const char *to) { return change('r', a, from, b, to, SYS_renameat2, a, (long)from, b, (long)to, 0); }
int renameat2(int a, const char *from, int b, const char *to, unsigned flags) {
  return change(flags ? '?' : 'r', a, from, b, to, SYS_renameat2, a, (long)from, b, (long)to, flags);
}
int ftruncate(int file, off_t length) {
  pthread_mutex_lock(&lock);
  may_stop();
  int done = syscall(SYS_ftruncate, file, length), error = errno;
  if (!done) note('t', file, length, "", "", 0);
  pthread_mutex_unlock(&lock);
  errno = error;
  return done;
}
int ftruncate64(int file, off_t length) __attribute__((alias("ftruncate")));
int link(const char *from, const char *to) { return unknown("link"), syscall(SYS_linkat, AT_FDCWD, from, AT_FDCWD, to, 0); }
int symlink(const char *from, const char *to) { return unknown("symlink"), syscall(SYS_symlinkat, from, AT_FDCWD, to); }
int truncate(const char *path, off_t length) { return unknown("truncate"), syscall(SYS_truncate, path, length); }
int fallocate(int file, int mode, off_t at, off_t length) { return unknown("fallocate"), syscall(SYS_fallocate, file, mode, at, length); }
ssize_t copy_file_range(int from, off_t *a, int to, off_t *b, size_t length, unsigned flags) {
  return unknown("copy_file_range"), syscall(SYS_copy_file_range, from, a, to, b, length, flags);
}
ssize_t sendfile(int to, int from, off_t *at, size_t length) { return unknown("sendfile"), syscall(SYS_sendfile, to, from, at, length); }
