/* Blocks of a file that are all zero, and take no room on the disk. */
#ifndef HOLES_H
#define HOLES_H

#include <stddef.h>
#include <stdint.h>

/* The file's octets, mapped at `octets`, stay what they are, and so does its length. Where the file
   system has no holes nothing happens. To be called guarded: it reads all that is mapped. */
void holes_punch(int fd, const uint8_t *octets, size_t size);

#endif
