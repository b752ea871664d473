/* A disk that fails and that can be looked at: a library that is loaded before the program, for tests/disks.py, which reads what it notes.

   Of the files in the folder DISK_FOLDER each write, sync and name that comes or goes is noted in the file DISK_LOG, and so is what goes to
   standard output. A note has a kind, 1 where the call succeeded, the inode, a place, the number of bytes that follow, and these.

   DISK_FAILS=N makes the Nth sync of the process fail with EIO, or with `w` in front the Nth write, of which DISK_WRITES=K lets K bytes
   through. With DISK_KILLS=1 the process is killed at that call instead. For the system the pages are clean after a sync that failed; what
   of them came to the medium is up to tests/disks.py. */
#define _GNU_SOURCE
#include <dlfcn.h>
#include <errno.h>
#include <fcntl.h>
#include <signal.h>
#include <stdarg.h>
#include <stdint.h>
#include <stdio.h>
#include <stdlib.h>
#include <string.h>
#include <sys/stat.h>
#include <sys/uio.h>
#include <unistd.h>

static int syncs, writes, log_descriptor = -1;

#define REAL(type, name, ...) ((type (*)(__VA_ARGS__)) dlsym(RTLD_NEXT, name))

/* Notes a call. */
static void note(char kind, int is_done, uint64_t inode, int64_t place, const void *bytes, uint32_t count)
{
    struct __attribute__((packed)) { char kind, is_done; uint64_t inode; int64_t place; uint32_t count; } head = {
        kind, (char) is_done, inode, place, count };
    struct iovec parts[2] = { { &head, sizeof head }, { (void *) bytes, count } };
    if (log_descriptor < 0)
        log_descriptor = REAL(int, "open", const char *, int, ...)(getenv("DISK_LOG"), O_WRONLY | O_APPEND | O_CREAT | O_CLOEXEC, 0600);
    if (REAL(ssize_t, "writev", int, const struct iovec *, int)(log_descriptor, parts, 2) != (ssize_t) (sizeof head + count))
        abort();
}

/* The inode of a file in the folder, or of the folder; 0 of any other. */
static uint64_t inode_of(int descriptor)
{
    char link[64], path[4096] = { 0 };
    const char *folder = getenv("DISK_FOLDER");
    struct stat found;
    snprintf(link, sizeof link, "/proc/self/fd/%d", descriptor);
    if (!folder || readlink(link, path, sizeof path - 1) < 0 || strncmp(path, folder, strlen(folder)) != 0)
        return 0;
    return fstat(descriptor, &found) == 0 ? found.st_ino : 0;
}

/* What a path is called in the folder; NULL of any other path. */
static const char *name_of(const char *path)
{
    const char *folder = getenv("DISK_FOLDER");
    size_t length = folder ? strlen(folder) : 0;
    return length && strncmp(path, folder, length) == 0 && path[length] == '/' ? path + length + 1 : NULL;
}

/* Whether this call of a kind, the count-th one, is to fail. */
static int fails(char kind, int count)
{
    const char *failing = getenv("DISK_FAILS");
    if (!failing || (*failing == 'w') != (kind == 'w'))
        return 0;
    return count == atoi(failing + (kind == 'w'));
}

/* Ends the process here, where it is to be killed. */
static void end(void)
{
    if (getenv("DISK_KILLS"))
        kill(getpid(), SIGKILL);
}

ssize_t pwrite(int descriptor, const void *bytes, size_t count, off_t place)
{
    uint64_t inode = inode_of(descriptor);
    ssize_t (*call)(int, const void *, size_t, off_t) = REAL(ssize_t, "pwrite", int, const void *, size_t, off_t);
    if (inode && fails('w', ++writes)) {
        size_t part = (size_t) atoi(getenv("DISK_WRITES") ? getenv("DISK_WRITES") : "0");
        part = part < count ? part : count;
        if (part && call(descriptor, bytes, part, place) != (ssize_t) part)
            abort();
        note('w', 0, inode, place, bytes, (uint32_t) part);
        end();
        errno = EIO;
        return -1;
    }
    ssize_t written = call(descriptor, bytes, count, place);
    if (inode && written >= 0)
        note('w', 1, inode, place, bytes, (uint32_t) written);
    return written;
}

ssize_t pwrite64(int descriptor, const void *bytes, size_t count, off_t place)
{
    return pwrite(descriptor, bytes, count, place);
}

static int synced(int descriptor, const char *name)
{
    uint64_t inode = inode_of(descriptor);
    if (inode && fails('s', ++syncs)) {
        end();
        note('s', 0, inode, 0, NULL, 0);
        errno = EIO;
        return -1;
    }
    if (inode)
        note('s', 1, inode, 0, NULL, 0);
    return REAL(int, name, int)(descriptor);
}

int fsync(int descriptor)
{
    return synced(descriptor, "fsync");
}

int fdatasync(int descriptor)
{
    return synced(descriptor, "fdatasync");
}

ssize_t write(int descriptor, const void *bytes, size_t count)
{
    ssize_t written = REAL(ssize_t, "write", int, const void *, size_t)(descriptor, bytes, count);
    if (descriptor == 1 && written > 0)
        note('a', 1, 0, 0, bytes, (uint32_t) written);
    return written;
}

int open(const char *path, int flags, ...)
{
    va_list more;
    va_start(more, flags);
    mode_t mode = flags & O_CREAT ? va_arg(more, mode_t) : 0;
    va_end(more);
    int descriptor = REAL(int, "open", const char *, int, ...)(path, flags, mode);
    if (descriptor >= 0 && flags & O_CREAT && name_of(path))
        note('n', 1, inode_of(descriptor), 0, name_of(path), (uint32_t) strlen(name_of(path)));
    return descriptor;
}

int link(const char *from, const char *to)
{
    struct stat found;
    int status = REAL(int, "link", const char *, const char *)(from, to);
    if (status == 0 && name_of(to) && stat(to, &found) == 0)
        note('n', 1, found.st_ino, 0, name_of(to), (uint32_t) strlen(name_of(to)));
    return status;
}

int unlink(const char *path)
{
    int status = REAL(int, "unlink", const char *)(path);
    if (status == 0 && name_of(path))
        note('u', 1, 0, 0, name_of(path), (uint32_t) strlen(name_of(path)));
    return status;
}
