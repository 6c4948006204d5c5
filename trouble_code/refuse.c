/* Refuses one call of the system. `trouble` has the program loaded with this (LD_PRELOAD).
   REFUSE names the calls that are counted: memory, read, write, open, unlink, rename, mkdir, rmdir, fsync, sendto or recvfrom.
   REFUSE_AT is the number of the one that is refused, from 1 on. Where REFUSE_SHORT is set, a read or a write of more than a byte
   gives one byte there instead. How many there were is written to the file REFUSE_COUNT, where it is named. */
#define _GNU_SOURCE
#include <dlfcn.h>
#include <errno.h>
#include <fcntl.h>
#include <stdarg.h>
#include <stdatomic.h>
#include <stdio.h>
#include <stdlib.h>
#include <string.h>
#include <sys/socket.h>
#include <sys/stat.h>
#include <unistd.h>

void *__libc_malloc(size_t), *__libc_calloc(size_t, size_t), *__libc_realloc(void *, size_t), *__libc_memalign(size_t, size_t);

static const char *counted;
static long refused;
static int is_short;
static atomic_long calls;

__attribute__((constructor)) static void begin(void) {
  const char *at = getenv("REFUSE_AT");
  refused = at ? atol(at) : 0;
  is_short = getenv("REFUSE_SHORT") != NULL;
  counted = getenv("REFUSE");
}

__attribute__((destructor)) static void end(void) {
  const char *path = counted ? getenv("REFUSE_COUNT") : NULL;
  counted = NULL;
  if (path) {
    int file = creat(path, 0644);
    dprintf(file, "%ld\n", atomic_load(&calls));
    close(file);
  }
}

/* Whether this call is the one that is refused. */
static int due(const char *kind) {
  return counted && strcmp(kind, counted) == 0 && atomic_fetch_add(&calls, 1) + 1 == refused;
}

/* The next function of this name, with the type of the one here. */
#define NEXT(name) static __typeof__(&name) next; if (!next) next = (__typeof__(&name))dlsym(RTLD_NEXT, #name)
#define FAIL(error) do { errno = (error); return -1; } while (0)

/* A program that ends so doesn't come to `end` else. */
void _exit(int status) {
  NEXT(_exit);
  end();
  next(status);
  __builtin_unreachable();
}

void *malloc(size_t size) { if (due("memory")) { errno = ENOMEM; return NULL; } return __libc_malloc(size); }
void *calloc(size_t count, size_t size) { if (due("memory")) { errno = ENOMEM; return NULL; } return __libc_calloc(count, size); }
void *realloc(void *old, size_t size) { if (due("memory")) { errno = ENOMEM; return NULL; } return __libc_realloc(old, size); }
void *aligned_alloc(size_t to, size_t size) { if (due("memory")) { errno = ENOMEM; return NULL; } return __libc_memalign(to, size); }
int posix_memalign(void **at, size_t to, size_t size) {
  if (due("memory") || !(*at = __libc_memalign(to, size))) return ENOMEM;
  return 0;
}

ssize_t read(int file, void *bytes, size_t count) {
  NEXT(read);
  if (!due("read")) return next(file, bytes, count);
  if (is_short) return next(file, bytes, count < 1 ? count : 1);
  FAIL(EIO);
}
ssize_t write(int file, const void *bytes, size_t count) {
  NEXT(write);
  if (!due("write")) return next(file, bytes, count);
  if (is_short) return next(file, bytes, count < 1 ? count : 1);
  FAIL(ENOSPC);
}
/* The name under which the C library calls it as well. */
ssize_t __write(int file, const void *bytes, size_t count) { return write(file, bytes, count); }
/* The mode that follows the flags, where there is one. */
#define MODE(mode) va_list rest; va_start(rest, flags); mode_t mode = va_arg(rest, mode_t); va_end(rest)
int open(const char *path, int flags, ...) {
  MODE(mode);
  NEXT(open);
  if (due("open")) FAIL(EIO);
  return next(path, flags, mode);
}
int openat(int folder, const char *path, int flags, ...) {
  MODE(mode);
  NEXT(openat);
  if (due("open")) FAIL(EIO);
  return next(folder, path, flags, mode);
}
int unlink(const char *path) { NEXT(unlink); if (due("unlink")) FAIL(EIO); return next(path); }
int rename(const char *from, const char *to) { NEXT(rename); if (due("rename")) FAIL(EIO); return next(from, to); }
int mkdir(const char *path, mode_t mode) { NEXT(mkdir); if (due("mkdir")) FAIL(EIO); return next(path, mode); }
int rmdir(const char *path) { NEXT(rmdir); if (due("rmdir")) FAIL(EIO); return next(path); }
int fsync(int file) { NEXT(fsync); if (due("fsync")) FAIL(EIO); return next(file); }
ssize_t sendto(int socket, const void *bytes, size_t count, int flags, const struct sockaddr *to, socklen_t size) {
  NEXT(sendto);
  if (due("sendto")) { if (is_short) return count - 1; FAIL(ENOBUFS); }
  return next(socket, bytes, count, flags, to, size);
}
ssize_t recvfrom(int socket, void *bytes, size_t count, int flags, struct sockaddr *from, socklen_t *size) {
  NEXT(recvfrom);
  if (due("recvfrom")) FAIL(EIO);
  return next(socket, bytes, count, flags, from, size);
}
