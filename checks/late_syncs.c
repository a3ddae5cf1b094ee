// Each sync of a file takes LATE_SYNCS microseconds more, as on a slower disk; no part of the program. bench/flushes loads it before the C library.
#include "preloaded.h"

static int late_sync(const char *name, int file) {
  const char *told = getenv("LATE_SYNCS");
  long microseconds = told ? atol(told) : 0;
  struct timespec late = {microseconds / 1000000, microseconds % 1000000 * 1000};
  int status = passed_on(name, file);
  nanosleep(&late, NULL);
  return status;
}

int fsync(int file) { return late_sync("fsync", file); }
int fdatasync(int file) { return late_sync("fdatasync", file); }
