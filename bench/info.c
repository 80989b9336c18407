/* Measures the minimum cost of a walk over code bytes: info FILE SIZE reads the file, SIZE bytes
   per read, and finds each FF with the C library's memchr. Prints their number. */
#include <fcntl.h>
#include <stdio.h>
#include <stdlib.h>
#include <string.h>
#include <unistd.h>

int main(int words, char **word)
{
    size_t size = words == 3 ? strtoul(word[2], NULL, 10) : 0, found = 0;
    char *bytes = malloc(size), *at;
    int file = size ? open(word[1], O_RDONLY) : -1;
    ssize_t count = -1;
    if (!bytes || file < 0)
        return 1;
    while ((count = read(file, bytes, size)) > 0)
        for (at = bytes; (at = memchr(at, 0xFF, (size_t)(bytes + count - at))); at++)
            found++;
    printf("%zu\n", found);
    return count < 0;
}
