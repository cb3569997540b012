/*
 * Loaded before the C library (LD_PRELOAD), it records the order in which a program syncs and renames, and can let a sync fail: each call
 * of fsync and rename adds a line to the file that RECORD names, and where SYNC_FAILS is set, fsync of a plain file fails with EIO.
 */
#define _GNU_SOURCE

#include <errno.h>
#include <stdio.h>
#include <stdlib.h>
#include <sys/stat.h>
#include <sys/syscall.h>
#include <unistd.h>

static void record(const char *line)
{
    const char *name = getenv("RECORD");
    FILE *file = name == NULL ? NULL : fopen(name, "a");
    if (file != NULL) {
        fputs(line, file);
        fclose(file);
    }
}

int fsync(int fd)
{
    struct stat found;
    int folder = fstat(fd, &found) == 0 && S_ISDIR(found.st_mode);
    record(folder ? "sync of the folder\n" : "sync of the file\n");
    if (!folder && getenv("SYNC_FAILS") != NULL) {
        errno = EIO;
        return -1;
    }
    return (int)syscall(SYS_fsync, fd);
}

int rename(const char *from, const char *to)
{
    record("rename\n");
    return (int)syscall(SYS_rename, from, to);
}
