/* A library that makes the disk of a program fail: while the file named by FAIL_WHILE is there, each sync fails.
 *
 *     cc -shared -fPIC -o failing_disk.so failing_disk.c
 *     FAIL_WHILE=/tmp/fail LD_PRELOAD=./failing_disk.so psu serve bench.psu      and then: touch /tmp/fail, rm /tmp/fail
 *
 * It needs no root. What the program wrote stays in the file: only the disk's word that it is kept is missing.
 */
#define _GNU_SOURCE
#include <errno.h>
#include <stdlib.h>
#include <sys/syscall.h>
#include <unistd.h>

static int synced(long call, int file) {
    const char *name = getenv("FAIL_WHILE");
    if (name && access(name, F_OK) == 0) {
        errno = EIO;
        return -1;
    }
    return syscall(call, file);
}

int fdatasync(int file) { return synced(SYS_fdatasync, file); }

int fsync(int file) { return synced(SYS_fsync, file); }
