/* Preloaded under the program by tests/crashes/logs: just before the call MEANWHILE_CALL, which is `fdatasync` or the `open` that may make
   a file, with the number MEANWHILE_AT, counted from 1, the file MEANWHILE_FROM gets the name MEANWHILE_TO, as another process may do it. */
#define _GNU_SOURCE
#include <dlfcn.h>
#include <fcntl.h>
#include <stdarg.h>
#include <stdio.h>
#include <stdlib.h>
#include <string.h>

static void call(const char *name) {
  static long calls;
  const char *which = getenv("MEANWHILE_CALL"), *at = getenv("MEANWHILE_AT");
  if (!which || !at || strcmp(which, name) != 0 || ++calls != atol(at)) return;
  if (rename(getenv("MEANWHILE_FROM"), getenv("MEANWHILE_TO")) != 0) abort();
}

int fdatasync(int file) {
  int (*next)(int) = (int (*)(int))dlsym(RTLD_NEXT, "fdatasync");
  call("fdatasync");
  return next(file);
}

int open(const char *path, int flags, ...) {
  int (*next)(const char *, int, mode_t) = (int (*)(const char *, int, mode_t))dlsym(RTLD_NEXT, "open");
  va_list more;
  va_start(more, flags);
  mode_t mode = flags & O_CREAT ? va_arg(more, mode_t) : 0;
  va_end(more);
  if (flags & O_CREAT) call("open");
  return next(path, flags, mode);
}
