/* hold FILE COMMAND..: runs the command while the file is locked. The lock is the open file's, which the command inherits and does not use. */
#include <fcntl.h>
#include <sys/file.h>
#include <unistd.h>

int main(int count, char **words)
{
    int fd = count > 2 ? open(words[1], O_RDWR) : -1;
    if (fd < 0 || flock(fd, LOCK_EX | LOCK_NB) != 0)
        return 3;
    execv(words[2], words + 2);
    return 3;
}
