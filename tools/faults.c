/* What tools/refuse-memory links into a checked build, whose calls of these names go to `__interceptor_NAME` where that is defined.

   FAULT in its environment is `KIND:N:FD`: of the program's own requests for memory, or of its reads and writes of the standard streams, the Nth
   goes wrong, and FD is told a byte. By `each:N:FD` each request for memory is refused in a copy of the process, which has N seconds to end. FD is
   told of each copy: a line with its status and how many bytes it printed on either stream, and these bytes. A process that has other threads or
   other files open cannot be copied so: FD is told a line of one word. Without FAULT nothing goes wrong. */
#define _GNU_SOURCE
#include <errno.h>
#include <fcntl.h>
#include <stdio.h>
#include <stdlib.h>
#include <sys/mman.h>
#include <sys/sendfile.h>
#include <sys/stat.h>
#include <sys/wait.h>
#include <unistd.h>

void *___interceptor_malloc(size_t size);
void *___interceptor_realloc(void *at, size_t size);
ssize_t ___interceptor_read(int from, void *to, size_t room);
ssize_t ___interceptor_write(int to, const void *from, size_t bytes);

/* The program asks for memory between these two, the first of which holds `rattle_realloc` too; other requests are the C library's. */
extern char rattle_alloc[], rattle_dealloc[];

enum { MOST_FILES = 64 };
static char kind[16];
static long left;
static int told = -1;

static int is_the_one(void) {
  return __atomic_sub_fetch(&left, 1, __ATOMIC_SEQ_CST) == 0 && ___interceptor_write(told, "!", 1) == 1;
}

/* Whether a copy of the process would have all of it: it is its only thread, and has no file open that both would move in. */
static int can_be_copied(void) {
  struct stat tasks;
  for (int file = STDERR_FILENO + 1; file < MOST_FILES; file++)
    if (file != told && fcntl(file, F_GETFD) != -1)
      return 0;
  return stat("/proc/self/task", &tasks) == 0 && tasks.st_nlink == 3;
}

static off_t copy_to(int to, int from) {
  struct stat whole;
  off_t done = 0;
  if (fstat(from, &whole))
    _exit(3);
  while (done < whole.st_size)
    if (sendfile(to, from, &done, whole.st_size - done) <= 0)
      _exit(3);
  return done;
}

/* Puts the standard input in its place, as far as it was read. */
static void open_input_again(void) {
  int again = open("/proc/self/fd/0", O_RDONLY);
  if (again >= 0 && lseek(again, lseek(STDIN_FILENO, 0, SEEK_CUR), SEEK_SET) >= 0)
    dup2(again, STDIN_FILENO);
  close(again);
}

/* Copies the process; returns whether this is the copy. The other one waits until the copy has ended, and tells how. */
static int is_the_copy(void) {
  int streams[] = {memfd_create("output", 0), memfd_create("errors", 0)}, status;
  pid_t copy = fork();
  if (copy == 0) {
    for (int it = 0; it < 2; it++) {
      copy_to(streams[it], STDOUT_FILENO + it);
      dup2(streams[it], STDOUT_FILENO + it);
      close(streams[it]);
    }
    open_input_again();
    alarm(left);
    kind[0] = 'n', left = 0;
    return 1;
  }
  struct stat out, err;
  if (copy < 0 || waitpid(copy, &status, 0) != copy || fstat(streams[0], &out) || fstat(streams[1], &err))
    _exit(3);
  dprintf(told, "%d %ld %ld\n", WIFEXITED(status) ? WEXITSTATUS(status) : -WTERMSIG(status), (long)out.st_size, (long)err.st_size);
  for (int it = 0; it < 2; it++) {
    copy_to(told, streams[it]);
    close(streams[it]);
  }
  return 0;
}

static int is_refused(char *caller) {
  if (caller < rattle_alloc || caller >= rattle_dealloc)
    return 0;
  if (kind[0] != 'e')
    return kind[0] == 'r' && is_the_one();
  if (can_be_copied())
    return is_the_copy();
  dprintf(told, "no\n");
  _exit(3);
}

void *__interceptor_malloc(size_t size) {
  return is_refused(__builtin_return_address(0)) ? NULL : ___interceptor_malloc(size);
}

void *__interceptor_realloc(void *at, size_t size) {
  return is_refused(__builtin_return_address(0)) ? NULL : ___interceptor_realloc(at, size);
}

/* How many bytes of this stream the call may move, or -1. */
static ssize_t most_of(int stream, size_t bytes) {
  if (stream > STDERR_FILENO || kind[0] == 'r' || kind[0] == 'e' || !is_the_one())
    return bytes;
  if (kind[0] == 's')
    return bytes > 1 ? 1 : bytes;
  errno = kind[0] == 'i' ? EINTR : EIO;
  return -1;
}

ssize_t __interceptor_read(int from, void *to, size_t room) {
  ssize_t most = most_of(from, room);
  return most < 0 ? most : ___interceptor_read(from, to, most);
}

ssize_t __interceptor_write(int to, const void *from, size_t bytes) {
  ssize_t most = most_of(to, bytes);
  return most < 0 ? most : ___interceptor_write(to, from, most);
}

__attribute__((constructor)) static void begin(void) {
  const char *fault = getenv("FAULT");
  if (fault && sscanf(fault, "%15[a-z]:%ld:%d", kind, &left, &told) != 3)
    _exit(3);
}
