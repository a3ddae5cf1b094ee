// Gives the files of a folder only so much room, as a small disk does, for tries of `served` alone; no part of the program.
// ROOM_FOLDER names the folder, by its real path, which is empty as the program begins. ROOM_FILE names a file with the number of bytes that its files may
// have together, those without a name too; it is read at each write that makes one longer. A write for which there is no room makes what there is room for,
// and fails with ENOSPC where that is nothing. A file that is cut off keeps what it has for half a second more.
#include "preloaded.h"

static pthread_mutex_t lock = PTHREAD_MUTEX_INITIALIZER;
static long long used;

// Whether it is a file of the folder.
static int is_inside(int file) {
  char path[PATH_MAX];
  const char *name = name_in(getenv("ROOM_FOLDER"), file, path);
  return name && *name;
}

static long long allowed(void) {
  char text[32] = "";
  int file = syscall(SYS_openat, AT_FDCWD, getenv("ROOM_FILE"), O_RDONLY | O_CLOEXEC);
  if (file < 0 || syscall(SYS_read, file, text, sizeof text - 1) <= 0) abort();
  close(file);
  return atoll(text);
}

static long long length_of(int file) {
  struct stat now;
  if (fstat(file, &now)) abort();
  return now.st_size;
}

// How many of the bytes there is room for.
static long long fitting(int file, long long length, long long offset) {
  long long longer = offset + length - length_of(file);
  if (longer <= 0) return length;
  long long room = allowed() - used;
  return room >= longer ? length : length - longer + (room > 0 ? room : 0);
}

ssize_t pwrite(int file, const void *bytes, size_t length, off_t offset) {
  if (!is_inside(file)) return syscall(SYS_pwrite64, file, bytes, length, offset);
  pthread_mutex_lock(&lock);
  long long before = length_of(file), fits = fitting(file, length, offset);
  ssize_t done = fits > 0 ? syscall(SYS_pwrite64, file, bytes, fits, offset) : -1;
  int error = fits > 0 ? errno : ENOSPC;
  used += length_of(file) - before;
  pthread_mutex_unlock(&lock);
  errno = error;
  return done;
}

int ftruncate(int file, off_t length) {
  static const struct timespec half = {0, 500000000};
  if (!is_inside(file)) return syscall(SYS_ftruncate, file, length);
  if (length_of(file) > length) nanosleep(&half, NULL);
  pthread_mutex_lock(&lock);
  long long before = length_of(file);
  int done = syscall(SYS_ftruncate, file, length), error = errno;
  used += length_of(file) - before;
  pthread_mutex_unlock(&lock);
  errno = error;
  return done;
}

ssize_t pwrite64(int file, const void *bytes, size_t length, off64_t offset) { return pwrite(file, bytes, length, offset); }
int ftruncate64(int file, off64_t length) { return ftruncate(file, length); }
