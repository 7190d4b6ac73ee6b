/* Preloaded under the program by tests/crashes/floors: writes in a file beside each log, LOG.synced, how many bytes of it are on the disk for certain,
   which are those that it had as the last sync began that ended well, or fewer where it was cut since. */
#define _GNU_SOURCE
#include <dlfcn.h>
#include <fcntl.h>
#include <stdio.h>
#include <stdlib.h>
#include <string.h>
#include <sys/stat.h>
#include <unistd.h>

static void note(int file, long size) {
  char link[64], path[4096], text[32];
  snprintf(link, sizeof link, "/proc/self/fd/%d", file);
  ssize_t length = readlink(link, path, sizeof path - 8);
  if (length < 4 || memcmp(path + length - 4, ".log", 4) != 0) return;
  memcpy(path + length, ".synced", 8);
  int beside = open(path, O_WRONLY | O_CREAT, 0666);
  snprintf(text, sizeof text, "%20ld\n", size);
  if (beside < 0 || pwrite(beside, text, 21, 0) != 21) abort();
  close(beside);
}

int fdatasync(int file) {
  int (*next)(int) = (int (*)(int))dlsym(RTLD_NEXT, "fdatasync");
  struct stat before;
  int result = fstat(file, &before) == 0 ? next(file) : -1;
  if (result == 0) note(file, before.st_size);
  return result;
}

static int cut(int file, off_t size, const char *name) {
  int (*next)(int, off_t) = (int (*)(int, off_t))dlsym(RTLD_NEXT, name);
  note(file, size);
  return next(file, size);
}

int ftruncate(int file, off_t size) { return cut(file, size, "ftruncate"); }
int ftruncate64(int file, off_t size) { return cut(file, size, "ftruncate64"); }
