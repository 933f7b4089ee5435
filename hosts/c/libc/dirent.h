/* What the desk's programs need of <dirent.h>, as the C library for x86-64 Linux has it: the kit's compiler comes without headers. */
#ifndef HOSTS_DIRENT_H
#define HOSTS_DIRENT_H

typedef struct __dirstream DIR;

struct dirent {
    unsigned long d_ino;
    long d_off;
    unsigned short d_reclen;
    unsigned char d_type;
    char d_name[256];
};

DIR *opendir(const char *path);
struct dirent *readdir(DIR *folder);
int closedir(DIR *folder);

#endif
