/* Test driver of the printed product, not proved: runs the program. A system call that
   fails, or a status of the program that is not 0, ends the driver with status 2. */
#ifndef CHILD_H
#define CHILD_H

#include <stddef.h>
#include <stdint.h>

#define TEXT_ROOM 40000     /* more than the longest text and a zero byte */

/* Runs the program on this standard input. Returns the length of its output, which is
   put into text with a zero byte behind it. */
size_t run_program(const char *path, const uint8_t *input, size_t length, char text[TEXT_ROOM]);

/* Reads at most `room` bytes of a file, and returns how many. */
size_t read_file(const char *path, void *bytes, size_t room);

#endif
