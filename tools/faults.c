// The library that tools/faults and tools/memory load before the C library. It counts the calls of a kind (FAIL_KIND), lets the
// one with a number fail (FAIL_AT), and writes at the end how many there were (to FAIL_CALLS).
#define _GNU_SOURCE
#include <errno.h>
#include <fcntl.h>
#include <stdarg.h>
#include <stdatomic.h>
#include <stdio.h>
#include <stdlib.h>
#include <string.h>
#include <sys/syscall.h>
#include <unistd.h>
static atomic_long calls;
static int fails(const char *name, int error) {
  const char *kind = getenv("FAIL_KIND"), *at = getenv("FAIL_AT");
  if (!kind || strcmp(kind, name) || atomic_fetch_add(&calls, 1) + 1 != atol(at)) return 0;
  errno = error;
  return 1;
}
extern void *__libc_malloc(size_t), *__libc_realloc(void *, size_t);
void *malloc(size_t n) { return fails("memory", ENOMEM) ? NULL : __libc_malloc(n); }
void *realloc(void *p, size_t n) { return fails("memory", ENOMEM) ? NULL : __libc_realloc(p, n); }
ssize_t read(int f, void *b, size_t n) { return fails("read", EIO) ? -1 : syscall(SYS_read, f, b, n); }
ssize_t write(int f, const void *b, size_t n) { return fails("write", EIO) ? -1 : syscall(SYS_write, f, b, n); }
ssize_t __write(int f, const void *b, size_t n) { return write(f, b, n); }
int fsync(int f) { return fails("fsync", EIO) ? -1 : syscall(SYS_fsync, f); }
int fdatasync(int f) { return fails("fsync", EIO) ? -1 : syscall(SYS_fdatasync, f); }
int mkdir(const char *p, mode_t m) { return fails("mkdir", EACCES) ? -1 : syscall(SYS_mkdir, p, m); }
int open(const char *p, int flags, ...) {
  va_list rest;
  va_start(rest, flags);
  int mode = va_arg(rest, int);
  va_end(rest);
  // The program opens this one to take the number of a standard stream. A build does without it.
  int is_counted = strcmp(p, "/dev/null") != 0;
  return is_counted && fails("open", EMFILE) ? -1 : syscall(SYS_open, p, flags, mode);
}
__attribute__((destructor)) static void tell(void) {
  char line[32];
  int file = syscall(SYS_open, getenv("FAIL_CALLS"), O_WRONLY | O_CREAT | O_TRUNC, 0644);
  syscall(SYS_write, file, line, snprintf(line, sizeof line, "%ld", atomic_load(&calls)));
}
void _exit(int status) { tell(); for (;;) syscall(SYS_exit_group, status); }
