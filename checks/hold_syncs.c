// Holds a sync of the file 0.a of a folder until one of 1.a is reached, and the other way round, for a try of `served` alone; no part of the program.
// HOLD_FOLDER names the folder, by its real path. Syncs are held once the file HOLD_FILE is there; it is one line longer, `both` or `late`, as soon as both
// were reached or HOLD_SECONDS were over, ten where there is no such word, and from then on nothing is held. HOLD_ONLY names the one call that is held, where
// it is not both. With HOLD_UNTIL only those of 0.a are held, until a file of that name is there, however long that takes: the line is `held`, as soon as the
// first is reached.
#include "preloaded.h"

#define SECONDS 10
static pthread_mutex_t lock = PTHREAD_MUTEX_INITIALIZER;
static pthread_cond_t reached = PTHREAD_COND_INITIALIZER;
static int is_reached[2], is_over;

// The shard whose file it is, or none.
static int shard_of(int file) {
  char path[PATH_MAX];
  const char *name = name_in(getenv("HOLD_FOLDER"), file, path);
  return !name ? -1 : !strcmp(name, "/0.a") ? 0 : !strcmp(name, "/1.a") ? 1 : -1;
}

static void note(const char *word) {
  int file = syscall(SYS_openat, AT_FDCWD, getenv("HOLD_FILE"), O_WRONLY | O_APPEND | O_CLOEXEC);
  if (file < 0 || syscall(SYS_write, file, word, strlen(word)) < 0) abort();
  close(file);
}

static void tell(const char *word) {
  note(word);
  is_over = 1;
  pthread_cond_broadcast(&reached);
}

static void hold_until(const char *name) {
  static const struct timespec pause = {0, 1000000};
  pthread_mutex_lock(&lock);
  if (!is_reached[0] && access(name, F_OK)) note("held\n");
  is_reached[0] = 1;
  while (access(name, F_OK)) nanosleep(&pause, NULL);
  pthread_mutex_unlock(&lock);
}

static void hold(int shard) {
  const char *name = getenv("HOLD_FILE"), *until = getenv("HOLD_UNTIL");
  if (!name || access(name, F_OK)) return;
  if (until) {
    if (!shard) hold_until(until);
    return;
  }
  struct timespec late;
  clock_gettime(CLOCK_REALTIME, &late);
  late.tv_sec += getenv("HOLD_SECONDS") ? atoi(getenv("HOLD_SECONDS")) : SECONDS;
  pthread_mutex_lock(&lock);
  is_reached[shard] = 1;
  if (!is_over && is_reached[!shard]) tell("both\n");
  while (!is_over)
    if (pthread_cond_timedwait(&reached, &lock, &late)) tell("late\n");
  pthread_mutex_unlock(&lock);
}

static int sync_by(const char *name, int file) {
  int shard = shard_of(file);
  const char *only = getenv("HOLD_ONLY");
  if (shard >= 0 && (!only || !strcmp(only, name))) hold(shard);
  return passed_on(name, file);
}

int fdatasync(int file) { return sync_by("fdatasync", file); }
int fsync(int file) { return sync_by("fsync", file); }
