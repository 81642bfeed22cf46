/* closed: its exit status says which of the three standard descriptors are closed, by a bit for each. */
#include <fcntl.h>

int main(void)
{
    int closed = 0;
    for (int fd = 0; fd < 3; fd++)
        if (fcntl(fd, F_GETFD) < 0)
            closed |= 1 << fd;
    return closed;
}
