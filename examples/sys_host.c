/* The same for the machine that the examples are compared on. */
#include "sys.h"

#include <unistd.h>

int sys_read(void *bytes, unsigned size)
{
    return (int)read(0, bytes, size);
}

int sys_write(const void *bytes, unsigned size)
{
    return (int)write(1, bytes, size);
}
