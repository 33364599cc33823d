/* A file as the device of a log.
 *
 * The library works on a private map of the file, and each answer's store is then carried to the file. A shared map would not do: a
 * kill falls between any two instructions and the compiler chooses the order of a store's bytes, while the log asks for metadata
 * whole or not at all, records front to back and wipes last byte first. So a store goes in pieces that no sector border parts, in
 * its order.
 *
 * SIGKILL: what pwrite has taken is the kernel's and is not lost, and a piece is taken whole or not at all. Power: O_DSYNC holds each
 * piece until the disk has it; the disk must write a sector whole or not at all, and must not say so before it has. */
#ifndef FILE_H
#define FILE_H

#include "liftlog_medium.h"

struct file {
    const char *name;
    int handle;
    uint8_t *image;
    size_t length;
};

/* Maps the file, and makes it first, with a fresh log of S slots of E bytes, when it is not there or empty. A failure of the
 * system is said on standard error and ends the program with status 1. */
struct file file_open(const char *name, uint32_t e, uint8_t s);

/* The file as liftlog_carry takes it. A piece that fails gives its errno. */
liftlog_device file_device(struct file *file);

#endif
