/* Appends records to a file and syncs each: what a put costs at the least.
 *
 *     append_sync FILE COUNT SIZE
 */
#include <fcntl.h>
#include <stdlib.h>
#include <unistd.h>

int main(int count, char **words) {
  if (count != 4) return 2;
  long records = atol(words[2]);
  size_t size = strtoul(words[3], NULL, 10);
  char *record = calloc(size, 1);
  int file = open(words[1], O_WRONLY | O_CREAT | O_APPEND, 0666);
  if (record == NULL || file < 0) return 1;
  for (long number = 0; number < records; number++)
    if (write(file, record, size) != (ssize_t)size || fdatasync(file) != 0) return 1;
  return 0;
}
