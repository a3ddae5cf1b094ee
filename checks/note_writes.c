// Notes what a program writes to the files of a folder, and which syncs ended, for the losses of power of `soak` alone; no part of the program.
// NOTES_FOLDER names the folder, by its real path, and NOTES_FILE the file of the notes. A note of a write stands before the write is made, with what the
// range held; that it was made, and that a sync was, stand behind. So whatever is killed, a range that may have been written is noted, and no sync is that
// did not end. NOTES_FORGET spoils them: `all` forgets each sync, `first` and `second` those of a file with an odd or an even number, and another word
// those of the file of this name.
// A note: magic, kind, length of the name, number of the note, number of the write or of the note when a sync began, offset, length, the file's length
// before, how many old bytes; then name, old bytes, new bytes.
#include "preloaded.h"

#define MAGIC 0x65746f6e2e6e617aULL
struct note { uint64_t magic, kind, name, number, of, offset, length, before, old; };

static char folder[PATH_MAX];
static size_t folder_length;
static const char *forget;
static int notes = -1;
static atomic_ullong numbers;
static atomic_uint syncs[256];

__attribute__((constructor)) static void find(void) {
  const char *named = getenv("NOTES_FOLDER"), *file = getenv("NOTES_FILE");
  forget = getenv("NOTES_FORGET");
  if (!named || !file || strlen(named) >= sizeof folder) return;
  strcpy(folder, named);
  folder_length = strlen(folder);
  notes = syscall(SYS_openat, AT_FDCWD, file, O_WRONLY | O_CREAT | O_APPEND | O_CLOEXEC, 0600);
}

// The name of an open file of the folder, "." for the folder itself, or nothing. A file whose name is gone is nothing too: no life behind this one has it.
static const char *name_of(int file, char *path) {
  struct stat now;
  if (notes < 0 || fstat(file, &now) || !now.st_nlink) return NULL;
  const char *name = name_in(folder, file, path);
  return name && !*name ? "." : name ? name + 1 : NULL;
}

static void put(struct note *note, const char *name, const void *old, const void *new) {
  int saved = errno;
  note->magic = MAGIC;
  note->name = strlen(name);
  struct iovec parts[4] = {{note, sizeof *note}, {(void *)name, note->name}, {(void *)old, note->old}, {(void *)new, new ? note->length : 0}};
  size_t length = sizeof *note + note->name + note->old + (new ? note->length : 0);
  if (syscall(SYS_writev, notes, parts, 4) != (ssize_t)length) abort();
  errno = saved;
}

static uint64_t next(void) { return atomic_fetch_add(&numbers, 1) + 1; }

static void note_unknown(int file, const char *call) {
  char path[PATH_MAX];
  struct note note = {.kind = 'X', .number = next(), .length = strlen(call)};
  const char *name = name_of(file, path);
  if (name) put(&note, name, NULL, call);
}

ssize_t pwrite(int file, const void *bytes, size_t length, off_t offset) {
  char path[PATH_MAX];
  const char *name = name_of(file, path);
  if (!name) return syscall(SYS_pwrite64, file, bytes, length, offset);
  struct stat now;
  void *old = malloc(length + 1);
  if (!old || fstat(file, &now)) abort();
  struct note note = {.kind = 'W', .number = next(), .offset = offset, .length = length, .before = now.st_size};
  ssize_t held = pread(file, old, length, offset);
  if (held < 0) abort();
  note.of = note.number;
  note.old = held;
  put(&note, name, old, bytes);
  free(old);
  ssize_t done = syscall(SYS_pwrite64, file, bytes, length, offset);
  struct note made = {.kind = 'D', .number = next(), .of = note.number, .length = 0};
  if (done == (ssize_t)length) put(&made, name, NULL, NULL);
  return done;
}

ssize_t pwrite64(int file, const void *bytes, size_t length, off64_t offset) { return pwrite(file, bytes, length, offset); }

static int is_forgotten(const char *name) {
  if (!forget || !strcmp(name, ".")) return 0;
  unsigned number = atomic_fetch_add(&syncs[(unsigned char)(name[0] * 2 + name[strlen(name) - 1])], 1) + 1;
  if (!strcmp(forget, "first")) return number % 2 == 1;
  if (!strcmp(forget, "second")) return number % 2 == 0;
  return !strcmp(forget, "all") || !strcmp(forget, name);
}

static int sync_by(const char *call, int file) {
  char path[PATH_MAX];
  const char *name = name_of(file, path);
  struct note note = {.kind = 'S', .of = atomic_load(&numbers)};
  int result = passed_on(call, file);
  note.number = next();
  if (name && !result && !is_forgotten(name)) put(&note, name, NULL, NULL);
  return result;
}

int fsync(int file) { return sync_by("fsync", file); }
int fdatasync(int file) { return sync_by("fdatasync", file); }

// A file that is made is noted before and behind; whether it was there is asked before.
static int open_by(int at, const char *path, int flags, mode_t mode) {
  struct stat now;
  int is_new = notes >= 0 && (flags & O_CREAT) && fstatat(at, path, &now, 0) && !strncmp(path, folder, folder_length) && path[folder_length] == '/';
  const char *name = is_new ? path + folder_length + 1 : NULL;
  struct note note = {.kind = 'C'};
  if (is_new) {
    note.number = note.of = next();
    put(&note, name, NULL, NULL);
  }
  int file = syscall(SYS_openat, at, path, flags, mode);
  struct note made = {.kind = 'D', .number = next(), .of = note.number};
  if (is_new && file >= 0) put(&made, name, NULL, NULL);
  if (file >= 0 && (flags & O_TRUNC)) note_unknown(file, "truncate");
  return file;
}

#define OPEN(name, ...)                                   \
  va_list more;                                           \
  va_start(more, flags);                                  \
  mode_t mode = flags & O_CREAT ? va_arg(more, mode_t) : 0; \
  va_end(more);                                           \
  return open_by(__VA_ARGS__, path, flags, mode)

int open(const char *path, int flags, ...) { OPEN(open, AT_FDCWD); }
int open64(const char *path, int flags, ...) { OPEN(open64, AT_FDCWD); }
int openat(int at, const char *path, int flags, ...) { OPEN(openat, at); }
int openat64(int at, const char *path, int flags, ...) { OPEN(openat64, at); }

// What the tears know nothing of is noted, and the check stops at it.
ssize_t write(int file, const void *bytes, size_t length) {
  note_unknown(file, "write");
  return syscall(SYS_write, file, bytes, length);
}

ssize_t writev(int file, const struct iovec *parts, int count) {
  note_unknown(file, "writev");
  return syscall(SYS_writev, file, parts, count);
}

int ftruncate(int file, off_t length) {
  note_unknown(file, "truncate");
  return syscall(SYS_ftruncate, file, length);
}

int ftruncate64(int file, off64_t length) { return ftruncate(file, length); }
