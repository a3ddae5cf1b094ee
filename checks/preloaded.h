// What the libraries have in common that are loaded before the C library of a program; no part of the program.
#define _GNU_SOURCE
#include <dlfcn.h>
#include <errno.h>
#include <fcntl.h>
#include <limits.h>
#include <pthread.h>
#include <stdarg.h>
#include <stdatomic.h>
#include <stdint.h>
#include <stdio.h>
#include <stdlib.h>
#include <string.h>
#include <sys/mman.h>
#include <sys/stat.h>
#include <sys/syscall.h>
#include <sys/uio.h>
#include <time.h>
#include <unistd.h>

// Of an open file what stands behind the path of the folder: a slash and its name, and of the folder itself nothing. NULL
// of any other file.
static inline const char *name_in(const char *folder, int file, char path[PATH_MAX]) {
  char link[64];
  snprintf(link, sizeof link, "/proc/self/fd/%d", file);
  ssize_t length = readlink(link, path, PATH_MAX - 1);
  size_t start = folder ? strlen(folder) : 0;
  if (!folder || length < 0) return NULL;
  path[length] = 0;
  return strncmp(path, folder, start) || (path[start] && path[start] != '/') ? NULL : path + start;
}

// The same call of the C library, on a file.
static inline int passed_on(const char *name, int file) { return ((int (*)(int))dlsym(RTLD_NEXT, name))(file); }
