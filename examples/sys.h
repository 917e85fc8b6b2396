/* All that the examples ask of the system they run on. */
#ifndef SYS_H
#define SYS_H

/* Reads at most `size` bytes of standard input; 0 at its end, below 0 where it fails. */
int sys_read(void *bytes, unsigned size);

/* Writes `size` bytes to standard output; how many were written, below 0 where it fails. */
int sys_write(const void *bytes, unsigned size);

#endif
