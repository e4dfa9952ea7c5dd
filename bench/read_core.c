/* Reads a file whole into fresh memory, by reads of 1 MiB. */
#include <fcntl.h>
#include <stdio.h>
#include <stdlib.h>
#include <sys/stat.h>
#include <unistd.h>

enum { PIECE = 1 << 20 };

static int failed(const char *what)
{
    perror(what);
    return 1;
}

int main(int argc, char **argv)
{
    if (argc != 2) {
        fprintf(stderr, "usage: read_core FILE\n");
        return 2;
    }
    int file = open(argv[1], O_RDONLY);
    struct stat about;
    if (file < 0 || fstat(file, &about) < 0)
        return failed(argv[1]);
    size_t size = (size_t)about.st_size;
    unsigned char *bytes = malloc(size);
    if (bytes == NULL)
        return failed("malloc");
    size_t done = 0;
    while (done < size) {
        size_t room = size - done < PIECE ? size - done : PIECE;
        ssize_t count = read(file, bytes + done, room);
        if (count < 0)
            return failed("read");
        if (count == 0)
            break;
        done += (size_t)count;
    }
    free(bytes);
    close(file);
    return done == size ? 0 : 1;
}
