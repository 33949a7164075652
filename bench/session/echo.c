/* Writes what it reads, as it comes. */
#include <unistd.h>

int main(void) {
  char bytes[65536];
  ssize_t count;
  while ((count = read(0, bytes, sizeof bytes)) > 0) {
    for (ssize_t at = 0, written; at < count; at += written) {
      written = write(1, bytes + at, (size_t)(count - at));
      if (written < 0) return 1;
    }
  }
  return count < 0;
}
