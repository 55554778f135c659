/* What is linked into a program that tools/compiled.py compiles. One that has the mark copies itself to KEPT when it begins, and ends. The mark is
   taken out of the copy, which then runs as any other program. */
#include <fcntl.h>
#include <sys/sendfile.h>
#include <sys/stat.h>
#include <unistd.h>

static volatile char mark[] = "sidzkura: this program is to be kept";

static int copy(const char *name) {
  struct stat whole;
  off_t done = 0;
  int from = open(name, O_RDONLY), to = open(KEPT, O_WRONLY | O_CREAT | O_EXCL, 0700);
  if (from < 0 || to < 0 || fstat(from, &whole))
    return 1;
  while (done < whole.st_size)
    if (sendfile(to, from, &done, whole.st_size - done) <= 0)
      return 1;
  return 0;
}

__attribute__((constructor)) static void keep(int count, char **words) {
  if (mark[0])
    _exit(copy(words[0]));
}
