// Reads and writes that fail as a machine's can, for tools/programs-check. The variable FAIL names the failure:
//   read-eio     the first read gives 8 bytes, and the next fails
//   read-eintr   the first read is interrupted
//   read-byte    a read gives one byte
//   write-eio    a write to standard output fails
//   write-half   the first write to standard output takes a part, and the next fails
//   write-byte   a write to standard output takes one byte
//   write-eintr  the first write to standard output is interrupted
//   write-none   a write to standard output takes nothing
#define _GNU_SOURCE
#include <errno.h>
#include <stdlib.h>
#include <string.h>
#include <sys/syscall.h>
#include <unistd.h>

static int is(const char *name) {
    const char *fail = getenv("FAIL");
    return fail && strcmp(fail, name) == 0;
}

ssize_t read(int fd, void *buffer, size_t count) {
    static int reads;
    reads++;
    if (is("read-eio")) {
        if (reads > 1) { errno = EIO; return -1; }
        return syscall(SYS_read, fd, buffer, count < 8 ? count : 8);
    }
    if (is("read-eintr") && reads == 1) { errno = EINTR; return -1; }
    if (is("read-byte") && count > 1) count = 1;
    return syscall(SYS_read, fd, buffer, count);
}

ssize_t write(int fd, const void *buffer, size_t count) {
    static int writes;
    if (fd == 1) {
        writes++;
        if (is("write-eio")) { errno = EIO; return -1; }
        if (is("write-half") && writes > 1) { errno = EIO; return -1; }
        if (is("write-half")) count = (count + 1) / 2;
        if (is("write-eintr") && writes == 1) { errno = EINTR; return -1; }
        if (is("write-byte") && count > 1) count = 1;
        if (is("write-none")) return 0;
    }
    return syscall(SYS_write, fd, buffer, count);
}
