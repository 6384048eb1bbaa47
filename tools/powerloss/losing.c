// A library that is loaded before libc and loses syncs, to show that powerloss finds it. PL_DROP: all; or which of
// the three syncs of each commit, first
// or second. A process's first sync is that of the opening.
#include <stdlib.h>
#include <string.h>
#include <sys/syscall.h>
#include <unistd.h>

static int is_lost(void)
{
    static long count;
    const char *which = getenv("PL_DROP");
    long turn = __atomic_add_fetch(&count, 1, __ATOMIC_SEQ_CST);
    if (!which)
        return 0;
    if (!strcmp(which, "all"))
        return 1;
    return turn > 1 && (turn - 2) % 3 == (strcmp(which, "first") ? 1 : 0);
}

int fdatasync(int file)
{
    return is_lost() ? 0 : syscall(SYS_fdatasync, file);
}

int fsync(int file)
{
    return is_lost() ? 0 : syscall(SYS_fsync, file);
}
