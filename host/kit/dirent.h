#ifndef KIT_DIRENT_H
#define KIT_DIRENT_H
enum { DT_UNKNOWN = 0, DT_REG = 8, DT_LNK = 10 };
typedef struct __dirstream DIR;
struct dirent {
    unsigned long d_ino;
    long d_off;
    unsigned short d_reclen;
    unsigned char d_type;
    char d_name[256];
};
DIR *opendir(const char *);
struct dirent *readdir(DIR *);
int closedir(DIR *);
#endif
