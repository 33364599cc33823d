/* The file: made, mapped, and written to in pieces. */
#define _DEFAULT_SOURCE
#include "file.h"

#include <errno.h>
#include <fcntl.h>
#include <libgen.h>
#include <stdbool.h>
#include <stdio.h>
#include <stdlib.h>
#include <string.h>
#include <sys/file.h>
#include <sys/mman.h>
#include <sys/stat.h>
#include <unistd.h>

enum { SECTOR = 512, LONGEST_NAME = 4096 };

static void expect(bool is_so, const char *name, const char *what)
{
    if (is_so)
        return;
    fprintf(stderr, "%s: %s: %s\n", name, what, strerror(errno));
    exit(EXIT_FAILURE);
}

/* A new name is on the disk when its folder is. */
static void keep_name(const char *name)
{
    char path[LONGEST_NAME];
    int folder = open(dirname(strcpy(path, name)), O_RDONLY);
    expect(folder >= 0 && fsync(folder) == 0, name, "its folder");
    close(folder);
}

/* The file is made under another name: a kill before the rename leaves no log, and one behind it a whole one. */
static void make(const char *name, uint32_t e, uint8_t s)
{
    char other[LONGEST_NAME];
    int name_length = snprintf(other, sizeof other, "%s.new", name);
    size_t length = LIFTLOG_IMAGE(e, s);
    uint8_t *image = calloc(1, length);
    expect(image != NULL && name_length < LONGEST_NAME, name, "make");
    expect(liftlog_create(image, length, e, s).number == LIFTLOG_DONE, name, "create is refused");
    int file = open(other, O_WRONLY | O_CREAT | O_TRUNC, 0644);
    expect(file >= 0, other, "make");
    expect(write(file, image, length) == (ssize_t)length && fsync(file) == 0 && close(file) == 0, other, "write");
    expect(rename(other, name) == 0, name, "rename");
    keep_name(name);
    free(image);
}

struct file file_open(const char *name, uint32_t e, uint8_t s)
{
    struct stat found;
    if (stat(name, &found) != 0 ? errno == ENOENT : found.st_size == 0)
        make(name, e, s);
    struct file file = {.name = name, .handle = open(name, O_RDWR | O_DSYNC)};
    expect(file.handle >= 0 && fstat(file.handle, &found) == 0, name, "open");
    expect(flock(file.handle, LOCK_EX | LOCK_NB) == 0, name, "another program has it");
    file.length = (size_t)found.st_size;
    file.image = mmap(NULL, file.length, PROT_READ | PROT_WRITE, MAP_PRIVATE, file.handle, 0);
    expect(file.image != MAP_FAILED, name, "map");
    return file;
}

/* One piece. Metadata lie in the first sector, and so are one too. */
static int put(void *context, size_t place, const uint8_t *bytes, size_t count)
{
    const struct file *file = context;
    ssize_t taken = pwrite(file->handle, bytes, count, (off_t)place);
    if (taken == (ssize_t)count)
        return 0;
    return taken < 0 ? errno : EIO;
}

static int zero(void *context, size_t place, size_t count)
{
    static const uint8_t zeros[SECTOR];
    return put(context, place, zeros, count);
}

liftlog_device file_device(struct file *file)
{
    return (liftlog_device){file, SECTOR, put, zero, put};
}
