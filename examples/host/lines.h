/* Calls of one owner as lines on standard input, each answered by a line on standard output once it is committed. */
#ifndef HOST_LINES_H
#define HOST_LINES_H
#include "file.h"

/* Answers until the end of the input; gives 0, or 3 where answers could not be written. */
int answer_lines(const kept_file *file, uint8_t owner);

/* Reads a number of 0 to 255, all of the text being one. */
int parse_byte(const char *text, uint8_t *number);
#endif
