/* Preloaded under the program and the tests. By tests/crashes/refused-memory and tests/c/c-library: refuses the request for memory with
   the number in REFUSE, counted from 1, and says on the descriptor in REFUSE_MET that it has met it. Where REFUSE_ASKED is set, it
   counts those requests alone that come between a line `asked` on the standard error and the next line there. Where REFUSE_FREE is
   set too, it says of each call of `free` between them that it has met it.
   By tests/crashes/logs: interrupts the call on the standard stream INTERRUPT with the number INTERRUPT_AT, which then makes the file
   INTERRUPT_MET.
   By tests/crashes/failed-writes: refuses the write to the standard output with the number in REFUSE_WRITE, counted from 1, and
   none after it. */
#define _GNU_SOURCE
#include <dlfcn.h>
#include <errno.h>
#include <fcntl.h>
#include <stdlib.h>
#include <string.h>
#include <unistd.h>

#define NEXT(type, name) \
  static type next; \
  if (!next) next = (type)dlsym(RTLD_NEXT, name)

typedef void *(*malloc_t)(size_t);
typedef void *(*realloc_t)(void *, size_t);
typedef void *(*aligned_t)(size_t, size_t);
typedef int (*posix_t)(void **, size_t, size_t);
typedef void (*free_t)(void *);
typedef ssize_t (*write_t)(int, const void *, size_t);
typedef ssize_t (*read_t)(int, void *, size_t);

static long left = -1, writes_left;
static int from_asked, counts, frees;

static void begin(void) {
  if (left != -1) return;
  const char *n = getenv("REFUSE");
  left = n ? atol(n) : 0;
  from_asked = getenv("REFUSE_ASKED") != NULL;
  counts = !from_asked;
  frees = getenv("REFUSE_FREE") != NULL;
  const char *w = getenv("REFUSE_WRITE");
  writes_left = w ? atol(w) : 0;
}

/* whether the call on this stream is interrupted */
static int interrupted(int stream) {
  static long calls;
  const char *which = getenv("INTERRUPT"), *at = getenv("INTERRUPT_AT"), *file = getenv("INTERRUPT_MET");
  if (!which || !at || !file || atoi(which) != stream || ++calls != atol(at)) return 0;
  close(open(file, O_CREAT | O_WRONLY, 0666));
  errno = EINTR;
  return 1;
}

ssize_t read(int from, void *bytes, size_t size) {
  NEXT(read_t, "read");
  return interrupted(from) ? -1 : next(from, bytes, size);
}

ssize_t write(int to, const void *bytes, size_t size) {
  NEXT(write_t, "write");
  begin();
  if (interrupted(to)) return -1;
  if (from_asked && to == STDERR_FILENO) counts = size >= 5 && memcmp(bytes, "asked", 5) == 0;
  if (to == STDOUT_FILENO && writes_left != 0 && --writes_left == 0) {
    errno = ENOSPC;
    return -1;
  }
  return next(to, bytes, size);
}

static void met(void) {
  const char *descriptor = getenv("REFUSE_MET");
  if (descriptor && write(atoi(descriptor), "met\n", 4) != 4) _exit(99);
}

static int refused(void) {
  begin();
  if (!counts || left == 0 || --left != 0) return 0;
  met();
  errno = ENOMEM;
  return 1;
}

void free(void *memory) {
  NEXT(free_t, "free");
  begin();
  if (frees && counts) met();
  next(memory);
}

void *malloc(size_t size) {
  NEXT(malloc_t, "malloc");
  return refused() ? NULL : next(size);
}

void *realloc(void *old, size_t size) {
  NEXT(realloc_t, "realloc");
  return refused() ? NULL : next(old, size);
}

void *aligned_alloc(size_t align, size_t size) {
  NEXT(aligned_t, "aligned_alloc");
  return refused() ? NULL : next(align, size);
}

int posix_memalign(void **to, size_t align, size_t size) {
  NEXT(posix_t, "posix_memalign");
  return refused() ? ENOMEM : next(to, align, size);
}
