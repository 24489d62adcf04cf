// Stands before the C library, by LD_PRELOAD, and counts the calls that change a file or sync it, from
// 1; standard input, output and error don't count. Before the call of the number in STOP it ends the
// process, with a status that says what it did besides:
//   77  nothing: all that was written before is in the file
//   78  with STOP_AS=half: it made the first half of that call, a write of two bytes or more
//   79  with STOP_AS=lost: it took back what was written and cut since each file's last sync
// With TRACE it adds a line to that file for each call that was made, and succeeded:
//   write PATH AT COUNT FIRST   FIRST is the first byte
//   cut PATH SIZE
//   sync PATH
// With SYNCS=none a sync is taken for nothing, so that STOP_AS=lost takes back all that was written.
#define _GNU_SOURCE
#include <dlfcn.h>
#include <fcntl.h>
#include <stdio.h>
#include <stdlib.h>
#include <string.h>
#include <sys/stat.h>
#include <sys/syscall.h>
#include <unistd.h>

// A change of a file that isn't synced: the bytes that it took away, and the length before.
struct change {
  int file;
  off_t at, size;
  ssize_t count;
  char *old;
};
enum { MOST = 4096 };
static struct change changes[MOST];
static int pending;
static long calls;

static void fail(void) { _exit(70); }

static void *real(const char *name) {
  void *found = dlsym(RTLD_NEXT, name);
  if (!found) fail();
  return found;
}

static int is(const char *name, const char *value) {
  const char *said = getenv(name);
  return said && !strcmp(said, value);
}

static ssize_t put(int file, const void *bytes, size_t count, off_t at) {
  ssize_t (*put)(int, const void *, size_t, off_t) = real("pwrite");
  return put(file, bytes, count, at);
}

// Adds a line to the trace: what was done, the path of the file, and numbers.
static void trace(const char *what, int file, const char *numbers) {
  const char *name = getenv("TRACE");
  char link[64], path[4096], line[4400];
  if (!name || file <= 2) return;
  snprintf(link, sizeof link, "/proc/self/fd/%d", file);
  ssize_t length = readlink(link, path, sizeof path - 1);
  if (length < 0) fail();
  path[length] = 0;
  int size = snprintf(line, sizeof line, "%s %s%s\n", what, path, numbers);
  int out = syscall(SYS_openat, AT_FDCWD, name, O_WRONLY | O_CREAT | O_APPEND, 0666);
  if (out < 0 || syscall(SYS_write, out, line, size) != size) fail();
  syscall(SYS_close, out);
}

static void keep(int file, off_t at, size_t count) {
  struct stat told;
  if (pending == MOST) fail();
  struct change *next = &changes[pending++];
  if (fstat(file, &told) || !(next->old = malloc(count + 1))) fail();
  next->file = file;
  next->at = at;
  next->size = told.st_size;
  next->count = pread(file, next->old, count, at);
  if (next->count < 0) fail();
}

static void undo(void) {
  int (*cut)(int, off_t) = real("ftruncate");
  while (pending > 0) {
    struct change *last = &changes[--pending];
    if (put(last->file, last->old, last->count, last->at) != last->count) fail();
    if (cut(last->file, last->size)) fail();
  }
}

static void forget(int file) {
  int left = 0;
  if (is("SYNCS", "none")) return;
  for (int i = 0; i < pending; i++)
    if (changes[i].file != file) changes[left++] = changes[i];
  pending = left;
}

// Whether the next call is the one to stop before.
static int stops(int file) {
  const char *number = getenv("STOP");
  return file > 2 && ++calls == (number ? atol(number) : 0);
}

static void stop(void) {
  int lost = is("STOP_AS", "lost") && pending > 0;
  if (lost) undo();
  _exit(lost ? 79 : 77);
}

static void before_write(int file, const void *bytes, size_t count, off_t at) {
  if (file <= 2) return;
  if (stops(file)) {
    if (!is("STOP_AS", "half") || count < 2) stop();
    if (put(file, bytes, count / 2, at) < 0) fail();
    _exit(78);
  }
  keep(file, at, count);
}

static ssize_t after_write(int file, const void *bytes, off_t at, ssize_t done) {
  char numbers[80];
  if (done > 0) {
    snprintf(numbers, sizeof numbers, " %ld %ld %d", (long)at, (long)done,
        *(const unsigned char *)bytes);
    trace("write", file, numbers);
  }
  return done;
}

ssize_t write(int file, const void *bytes, size_t count) {
  ssize_t (*next)(int, const void *, size_t) = real("write");
  off_t at = file > 2 ? lseek(file, 0, SEEK_CUR) : 0;
  before_write(file, bytes, count, at);
  return after_write(file, bytes, at, next(file, bytes, count));
}

ssize_t pwrite(int file, const void *bytes, size_t count, off_t at) {
  before_write(file, bytes, count, at);
  return after_write(file, bytes, at, put(file, bytes, count, at));
}

int ftruncate(int file, off_t size) {
  int (*next)(int, off_t) = real("ftruncate");
  struct stat told;
  char numbers[40];
  if (stops(file)) stop();
  if (file > 2 && !fstat(file, &told) && size < told.st_size)
    keep(file, size, told.st_size - size);
  int failed = next(file, size);
  snprintf(numbers, sizeof numbers, " %ld", (long)size);
  if (!failed) trace("cut", file, numbers);
  return failed;
}

// The same by their other names.
ssize_t pwrite64(int, const void *, size_t, off_t) __attribute__((alias("pwrite")));
int ftruncate64(int, off_t) __attribute__((alias("ftruncate")));

static int synced(const char *name, int file) {
  int (*next)(int) = real(name);
  if (stops(file)) stop();
  int failed = next(file);
  if (!failed) forget(file);
  if (!failed) trace("sync", file, "");
  return failed;
}

int fsync(int file) { return synced("fsync", file); }

int fdatasync(int file) { return synced("fdatasync", file); }
