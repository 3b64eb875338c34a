// Preloaded, stands before the calls by which the program reads and writes folders. A call is known by a word
// and the last name of the path that it is about, as `sync level_00.awdb.new`. The words are `stat`, `open`,
// `make`, `read`, `write`, `sync`, `lock`, `name` and `remove`. `make` opens to write, and `name` is about the
// new name.
//
// HOST_FAIL, as `sync level_00.awdb.new 28`, lets each such call fail with this error. HOST_LOG names a file
// that gets a line for each call that may change a folder. HOST_STOP, a number, stops the process before its
// call of this number behind the lock, counted from 1.
#define _GNU_SOURCE
#include <errno.h>
#include <fcntl.h>
#include <signal.h>
#include <stdarg.h>
#include <stdatomic.h>
#include <stdio.h>
#include <stdlib.h>
#include <string.h>
#include <sys/stat.h>
#include <sys/syscall.h>
#include <unistd.h>

static atomic_int is_locked;
static atomic_long calls;

static void log_line(const char *line) {
  const char *path = getenv("HOST_LOG");
  if (!path) return;
  int file = (int)syscall(SYS_openat, AT_FDCWD, path, O_CREAT | O_WRONLY | O_APPEND | O_CLOEXEC, 0600);
  if (file < 0) return;
  if (syscall(SYS_write, file, line, strlen(line)) < 0 || syscall(SYS_write, file, "\n", 1) < 0) abort();
  syscall(SYS_close, file);
}

// Whether the call of this word about this path is to fail. It is logged first if it `changes` a folder.
static int fails(const char *word, const char *path, int changes) {
  char call[512];
  const char *slash = strrchr(path, '/'), *stop = getenv("HOST_STOP"), *fail = getenv("HOST_FAIL");
  snprintf(call, sizeof call, "%s %s", word, slash ? slash + 1 : path);
  if (stop && is_locked && atomic_fetch_add(&calls, 1) + 1 == atol(stop)) raise(SIGSTOP);
  if (changes) log_line(call);
  size_t length = strlen(call);
  if (!fail || strncmp(fail, call, length) != 0 || fail[length] != ' ') return 0;
  errno = atoi(fail + length);
  return 1;
}

// The same, of an open file. The streams of the program are known as `stream`.
static int file_fails(const char *word, int file, int changes) {
  char link[64], path[512] = "stream";
  snprintf(link, sizeof link, "/proc/self/fd/%d", file);
  ssize_t length = file > 2 ? readlink(link, path, sizeof path - 1) : -1;
  if (length >= 0) path[length] = 0;
  return fails(word, path, changes && file > 2);
}

int statx(int folder, const char *path, int how, unsigned wanted, struct statx *found) {
  return fails("stat", path, 0) ? -1 : (int)syscall(SYS_statx, folder, path, how, wanted, found);
}

int open(const char *path, int how, ...) {
  va_list more;
  va_start(more, how);
  mode_t mode = how & O_CREAT ? va_arg(more, mode_t) : 0;
  va_end(more);
  int writes = (how & O_ACCMODE) != O_RDONLY;
  if (fails(writes ? "make" : "open", path, writes)) return -1;
  return (int)syscall(SYS_openat, AT_FDCWD, path, how, mode);
}

ssize_t read(int file, void *room, size_t size) {
  return file_fails("read", file, 0) ? -1 : syscall(SYS_read, file, room, size);
}

ssize_t pread(int file, void *room, size_t size, off_t place) {
  return file_fails("read", file, 0) ? -1 : syscall(SYS_pread64, file, room, size, place);
}

ssize_t write(int file, const void *bytes, size_t size) {
  return file_fails("write", file, 1) ? -1 : syscall(SYS_write, file, bytes, size);
}

ssize_t __write(int file, const void *bytes, size_t size) { return write(file, bytes, size); }

int fsync(int file) { return file_fails("sync", file, 1) ? -1 : (int)syscall(SYS_fsync, file); }

int fdatasync(int file) { return file_fails("sync", file, 1) ? -1 : (int)syscall(SYS_fdatasync, file); }

int flock(int file, int how) {
  if (file_fails("lock", file, 1)) return -1;
  int answer = (int)syscall(SYS_flock, file, how);
  if (answer == 0) is_locked = 1;
  return answer;
}

int rename(const char *old, const char *new) {
  return fails("name", new, 1) ? -1 : (int)syscall(SYS_renameat2, AT_FDCWD, old, AT_FDCWD, new, 0);
}

int unlink(const char *path) { return fails("remove", path, 1) ? -1 : (int)syscall(SYS_unlinkat, AT_FDCWD, path, 0); }
