/*
 * Stands between the server and the C library (LD_PRELOAD): appends to the file NOTES what is written to and synced, and
 * fails a sync of a record if FAIL is set.
 */
#define _GNU_SOURCE
#include <dlfcn.h>
#include <errno.h>
#include <fcntl.h>
#include <stdlib.h>
#include <string.h>
#include <sys/socket.h>
#include <sys/stat.h>
#include <unistd.h>

static int notes = -1;
static ssize_t (*real_write)(int, const void *, size_t);

__attribute__((constructor)) static void start(void)
{
    const char *path = getenv("NOTES");
    real_write = (ssize_t (*)(int, const void *, size_t))dlsym(RTLD_NEXT, "write");
    if (path)
        notes = open(path, O_WRONLY | O_APPEND | O_CREAT | O_CLOEXEC, 0600);
}

/* What is done to a file, a folder or a socket; messages and the bill go to pipes, and are not noted. */
static void note(const char *what, int descriptor)
{
    struct stat found;
    char line[32] = "";
    if (notes < 0 || fstat(descriptor, &found) != 0)
        return;
    const char *kind = S_ISREG(found.st_mode) ? " file\n" : S_ISDIR(found.st_mode) ? " folder\n" : " socket\n";
    if (S_ISFIFO(found.st_mode) || S_ISCHR(found.st_mode))
        return;
    strcat(strcat(line, what), kind);
    if (real_write(notes, line, strlen(line)) < 0)
        abort();
}

ssize_t write(int descriptor, const void *bytes, size_t length)
{
    note("write", descriptor);
    return real_write(descriptor, bytes, length);
}

ssize_t send(int descriptor, const void *bytes, size_t length, int flags)
{
    ssize_t (*real)(int, const void *, size_t, int) =
        (ssize_t (*)(int, const void *, size_t, int))dlsym(RTLD_NEXT, "send");
    note("write", descriptor);
    return real(descriptor, bytes, length, flags);
}

int fdatasync(int descriptor)
{
    int (*real)(int) = (int (*)(int))dlsym(RTLD_NEXT, "fdatasync");
    note("sync", descriptor);
    if (getenv("FAIL")) {
        errno = EIO;
        return -1;
    }
    return real(descriptor);
}

int fsync(int descriptor)
{
    int (*real)(int) = (int (*)(int))dlsym(RTLD_NEXT, "fsync");
    note("sync", descriptor);
    return real(descriptor);
}
