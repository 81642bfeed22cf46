#ifndef KIT_ERRNO_H
#define KIT_ERRNO_H
int *__errno_location(void);
#define errno (*__errno_location())
#define EINTR 4
#define ENXIO 6
#define ENOENT 2
#define ENOMEM 12
#define EEXIST 17
#define EISDIR 21
#define EWOULDBLOCK 11
#define EINVAL 22
#define ENOSYS 38
#endif
