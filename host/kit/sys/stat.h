#ifndef KIT_SYS_STAT_H
#define KIT_SYS_STAT_H
#define S_ISREG(mode) (((mode) & 0170000) == 0100000)
struct stat {
    unsigned long st_dev, st_ino, st_nlink;
    unsigned st_mode, st_uid, st_gid, st_none;
    unsigned long st_rdev;
    long st_size, st_others[11];
};
int fstat(int, struct stat *);
#endif
