// A library to be loaded before the C library's functions (LD_PRELOAD), which makes one call fail.
//
// STOP_AT=N ends the process, with status 77, at its N-th call that writes, syncs or cuts a file; with STOP_HALF=1 a
// write at that call writes its first half before. FAIL_AT=N answers "no space on the disk" at that call, and does nothing;
// FAIL_FROM=N at that call and each behind it. READ_FAILS_AT=N answers "input/output error" at the N-th call that reads a
// store, and READ_FAILS_FROM=N from that one on.
// POWER_GOES=M has the power go with that end: of each file, what was written or cut since its last sync is gone; with an M
// that is not 0 a part of these calls is kept, each by a bit drawn from M. SYNCS_LIE=1 has syncs answer well and keep nothing.
// REFUSE_AT=N answers "no memory" at its N-th request for memory, and REFUSE_EACH=N at each N-th; with REFUSE_AFTER=M they
// count from behind the M-th request on.
// ACCEPT_FAILS_AT=N answers "too many open files" in place of the N-th connection accepted, and CLOCK_AT=S has the clock tell
// S seconds since 1970, at all times; how long something takes is not told by that clock.
// SYNC_TAKES=MS has each sync of a file take so many milliseconds more.
// The rest is of standard input and standard output; or, with SOCKETS=1, of sockets. READ_MOST=N has a read give N bytes at
// most, and WRITE_MOST=N a write take as many. FLICKERS=1 interrupts each other read and write, from the first on, and
// INTERRUPTS=N the first N reads. INPUT_FAILS_AT=N answers "input/output error" at the N-th read and each behind it.
// OUTPUT_TAKES=N answers so at each write when N bytes were written, and OUTPUT_FILLS=N answers then that none was taken.
// CALLS=PATH has six counts written to that file when the process ends by itself: of the calls of files, of the syncs among
// them, of the requests for memory, of the calls that read a store; and of these reads and writes.
#define _GNU_SOURCE
#include <dlfcn.h>
#include <errno.h>
#include <fcntl.h>
#include <stdio.h>
#include <stdlib.h>
#include <string.h>
#include <sys/socket.h>
#include <sys/stat.h>
#include <sys/types.h>
#include <time.h>
#include <unistd.h>

static long calls, syncs, requests, accepted, stop_at, fail_at, fail_from, refuse_at, refuse_each, refuse_after;
static long accept_fails_at;
static long file_reads, read_fails_at, read_fails_from, reads, writes, read_most, write_most, interrupts, input_fails_at, room;
static int half, has_power_cut, syncs_lie, flickers, has_room, has_error, of_sockets, read_turns, write_turns;
static unsigned long power;

static long number(const char *name) {
  const char *text = getenv(name);
  return text ? atol(text) : 0;
}

__attribute__((constructor)) static void begin(void) {
  stop_at = number("STOP_AT");
  fail_at = number("FAIL_AT");
  fail_from = number("FAIL_FROM");
  read_fails_at = number("READ_FAILS_AT");
  read_fails_from = number("READ_FAILS_FROM");
  refuse_at = number("REFUSE_AT");
  refuse_each = number("REFUSE_EACH");
  refuse_after = number("REFUSE_AFTER");
  accept_fails_at = number("ACCEPT_FAILS_AT");
  half = getenv("STOP_HALF") != NULL;
  has_power_cut = getenv("POWER_GOES") != NULL;
  power = (unsigned long)number("POWER_GOES");
  syncs_lie = getenv("SYNCS_LIE") != NULL;
  read_most = number("READ_MOST");
  write_most = number("WRITE_MOST");
  interrupts = number("INTERRUPTS");
  input_fails_at = number("INPUT_FAILS_AT");
  flickers = getenv("FLICKERS") != NULL;
  of_sockets = getenv("SOCKETS") != NULL;
  has_error = getenv("OUTPUT_TAKES") != NULL;
  has_room = has_error || getenv("OUTPUT_FILLS");
  room = number(has_error ? "OUTPUT_TAKES" : "OUTPUT_FILLS");
  calls = syncs = requests = accepted = file_reads = reads = writes = 0;
}

__attribute__((destructor)) static void end(void) {
  const char *path = getenv("CALLS");
  int file = path ? open(path, O_WRONLY | O_CREAT | O_TRUNC, 0600) : -1;
  char text[160];
  if (file >= 0) {
    int length = snprintf(text, sizeof text, "%ld %ld %ld %ld %ld %ld\n", calls, syncs, requests, file_reads, reads, writes);
    if (write(file, text, (size_t)length) != length) _exit(78);
    close(file);
  }
}

// ---- what a loss of power takes

static ssize_t real_write(int file, const void *bytes, size_t size, off64_t at) {
  static ssize_t (*real)(int, const void *, size_t, off64_t);
  if (!real) real = (ssize_t(*)(int, const void *, size_t, off64_t))dlsym(RTLD_NEXT, "pwrite64");
  return real(file, bytes, size, at);
}

static ssize_t real_read(int file, void *bytes, size_t size, off64_t at) {
  static ssize_t (*real)(int, void *, size_t, off64_t);
  if (!real) real = (ssize_t(*)(int, void *, size_t, off64_t))dlsym(RTLD_NEXT, "pread64");
  return real(file, bytes, size, at);
}

static int real_cut(int file, off64_t size) {
  static int (*real)(int, off64_t);
  if (!real) real = (int (*)(int, off64_t))dlsym(RTLD_NEXT, "ftruncate64");
  return real(file, size);
}

// A call that changed a file and is not synced: what it wrote at a place, or that it cut the file there; what stood there
// before, and how long the file was.
struct change {
  int file, is_cut;
  off64_t at, length;
  size_t size, had;
  char *bytes, *before;
};

static struct change changes[1 << 15];
static long count;

static char *copied(const void *bytes, size_t size) {
  char *copy = calloc(size + 1, 1);  // (no call that is counted)
  if (!copy) _exit(78);
  return bytes ? memcpy(copy, bytes, size) : copy;
}

// Notes a change that is about to be made.
static void note(int file, const void *bytes, size_t size, off64_t at) {
  struct stat is;
  if (!has_power_cut) return;
  if (count == sizeof changes / sizeof *changes || fstat(file, &is)) _exit(78);
  struct change *it = &changes[count++];
  *it = (struct change){.file = file, .is_cut = !bytes, .at = at, .length = is.st_size, .size = size};
  off64_t end = bytes ? at + (off64_t)size : it->length;
  if (end > it->length) end = it->length;
  if (end > at) it->had = (size_t)(end - at);
  it->before = copied(NULL, it->had);
  if (bytes) it->bytes = copied(bytes, size);
  if (real_read(file, it->before, it->had, at) != (ssize_t)it->had) _exit(78);
}

static void forget_changes(int file) {
  long left = 0;
  for (long it = 0; it < count; it++) {
    if (changes[it].file != file) {
      changes[left++] = changes[it];
    } else {
      free(changes[it].bytes);
      free(changes[it].before);
    }
  }
  count = left;
}

static void undo(const struct change *it) {
  if (real_write(it->file, it->before, it->had, it->at) != (ssize_t)it->had || real_cut(it->file, it->length)) _exit(78);
}

static void redo(const struct change *it) {
  if (it->is_cut ? real_cut(it->file, it->at) : real_write(it->file, it->bytes, it->size, it->at) < 0) _exit(78);
}

// Ends the process, and with it the power, if that is asked for.
static void stop(void) {
  for (long it = count; it-- > 0;) undo(&changes[it]);
  for (long it = 0; power && it < count; it++) {
    power = power * 6364136223846793005 + 1442695040888963407;
    if (power >> 63) redo(&changes[it]);
  }
  _exit(77);
}

// ---- the calls of files

static int is_stop(void) { return ++calls == stop_at; }

// of the call that was counted last
static int fails(void) {
  if (calls != fail_at && !(fail_from && calls >= fail_from)) return 0;
  errno = ENOSPC;
  return 1;
}

ssize_t pread64(int file, void *bytes, size_t size, off64_t at) {
  file_reads++;
  if (file_reads != read_fails_at && !(read_fails_from && file_reads >= read_fails_from)) return real_read(file, bytes, size, at);
  errno = EIO;
  return -1;
}

ssize_t pread(int file, void *bytes, size_t size, off_t at) { return pread64(file, bytes, size, at); }

ssize_t pwrite64(int file, const void *bytes, size_t size, off64_t at) {
  if (is_stop()) {
    if (half && size > 1) {
      note(file, bytes, size / 2, at);
      if (real_write(file, bytes, size / 2, at) < 0) _exit(78);
    }
    stop();
  }
  if (fails()) return -1;
  note(file, bytes, size, at);
  return real_write(file, bytes, size, at);
}

ssize_t pwrite(int file, const void *bytes, size_t size, off_t at) { return pwrite64(file, bytes, size, at); }

// a disk that is slow
static void wait_for_disk(void) {
  long more = number("SYNC_TAKES");
  struct timespec time = {more / 1000, more % 1000 * 1000000};
  if (more) nanosleep(&time, NULL);
}

static int synced(int file, const char *name) {
  int (*real)(int) = (int (*)(int))dlsym(RTLD_NEXT, name);
  syncs++;
  if (is_stop()) stop();
  if (fails()) return -1;
  wait_for_disk();
  if (syncs_lie) return 0;
  int failed = real(file);
  if (!failed) forget_changes(file);
  return failed;
}

int fdatasync(int file) { return synced(file, "fdatasync"); }

int fsync(int file) { return synced(file, "fsync"); }

int ftruncate64(int file, off64_t size) {
  if (is_stop()) stop();
  if (fails()) return -1;
  note(file, NULL, 0, size);
  return real_cut(file, size);
}

int ftruncate(int file, off_t size) { return ftruncate64(file, size); }

// ---- standard input and standard output, or sockets

static size_t least(size_t size, long most) { return most && size > (size_t)most ? (size_t)most : size; }

// Counts a read, and answers whether it is to be made.
static int is_read(void) {
  reads++;
  int is_interrupted = reads <= interrupts || (flickers && ++read_turns % 2);
  errno = is_interrupted ? EINTR : EIO;
  return !is_interrupted && !(input_fails_at && reads >= input_fails_at);
}

ssize_t read(int file, void *bytes, size_t size) {
  static ssize_t (*real)(int, void *, size_t);
  if (!real) real = (ssize_t(*)(int, void *, size_t))dlsym(RTLD_NEXT, "read");
  if (file || of_sockets) return real(file, bytes, size);
  return is_read() ? real(file, bytes, least(size, read_most)) : -1;
}

ssize_t recv(int file, void *bytes, size_t size, int flags) {
  static ssize_t (*real)(int, void *, size_t, int);
  if (!real) real = (ssize_t(*)(int, void *, size_t, int))dlsym(RTLD_NEXT, "recv");
  if (!of_sockets) return real(file, bytes, size, flags);
  return is_read() ? real(file, bytes, least(size, read_most), flags) : -1;
}

// Counts a write of some bytes, and leaves of them those that are to be written; answers 0 where it is to be made.
static int write_fault(size_t *size) {
  writes++;
  if (flickers && ++write_turns % 2) return EINTR;
  if (has_room && !room && has_error) return EIO;
  *size = has_room && !room ? 0 : least(least(*size, write_most), room);
  room -= has_room ? (long)*size : 0;
  return 0;
}

ssize_t write(int file, const void *bytes, size_t size) {
  static ssize_t (*real)(int, const void *, size_t);
  if (!real) real = (ssize_t(*)(int, const void *, size_t))dlsym(RTLD_NEXT, "write");
  if (file != 1 || of_sockets) return real(file, bytes, size);
  int fault = write_fault(&size);
  if (!fault) return size ? real(file, bytes, size) : 0;
  errno = fault;
  return -1;
}

ssize_t send(int file, const void *bytes, size_t size, int flags) {
  static ssize_t (*real)(int, const void *, size_t, int);
  if (!real) real = (ssize_t(*)(int, const void *, size_t, int))dlsym(RTLD_NEXT, "send");
  if (!of_sockets) return real(file, bytes, size, flags);
  int fault = write_fault(&size);
  if (!fault) return size ? real(file, bytes, size, flags) : 0;
  errno = fault;
  return -1;
}

// ---- memory, the network and the clock

static int is_refused(void) {
  requests++;
  long at = requests - refuse_after;
  return at > 0 && (at == refuse_at || (refuse_each && at % refuse_each == 0));
}

void *malloc(size_t size) {
  static void *(*real)(size_t);
  if (!real) real = (void *(*)(size_t))dlsym(RTLD_NEXT, "malloc");
  return is_refused() ? NULL : real(size);
}

void *realloc(void *block, size_t size) {
  static void *(*real)(void *, size_t);
  if (!real) real = (void *(*)(void *, size_t))dlsym(RTLD_NEXT, "realloc");
  return is_refused() ? NULL : real(block, size);
}

int accept4(int socket, struct sockaddr *address, socklen_t *length, int flags) {
  static int (*real)(int, struct sockaddr *, socklen_t *, int);
  if (!real) real = (int (*)(int, struct sockaddr *, socklen_t *, int))dlsym(RTLD_NEXT, "accept4");
  int told = real(socket, address, length, flags);
  if (told < 0 || ++accepted != accept_fails_at) return told;
  close(told);
  errno = EMFILE;
  return -1;
}

int accept(int socket, struct sockaddr *address, socklen_t *length) { return accept4(socket, address, length, 0); }

int clock_gettime(clockid_t clock, struct timespec *now) {
  static int (*real)(clockid_t, struct timespec *);
  if (!real) real = (int (*)(clockid_t, struct timespec *))dlsym(RTLD_NEXT, "clock_gettime");
  int told = real(clock, now);
  if (!told && clock == CLOCK_REALTIME && getenv("CLOCK_AT")) now->tv_sec = number("CLOCK_AT");
  return told;
}
