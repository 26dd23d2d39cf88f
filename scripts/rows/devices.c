/* Preloaded before a program: a read gives at most READ_PIECES bytes. A read at the end of the file READ_FAILS fails. A file has room for
   FILE_ROOM bytes: what goes beyond them isn't written, and the write fails. What isn't set in the environment is as it was. */
#include <errno.h>
#include <signal.h>
#include <stdlib.h>
#include <sys/resource.h>
#include <sys/stat.h>
#include <sys/syscall.h>
#include <unistd.h>

static size_t pieces = (size_t)-1;
static int fails;
static struct stat failing;

__attribute__((constructor)) static void begin(void)
{
    const char *size = getenv("READ_PIECES"), *name = getenv("READ_FAILS"), *room = getenv("FILE_ROOM");
    if (size)
        pieces = strtoul(size, NULL, 10);
    if (name) {
        fails = 1;
        if (stat(name, &failing) != 0)
            _exit(99);
    }
    if (room) {
        struct rlimit limit = {strtoul(room, NULL, 10), strtoul(room, NULL, 10)};
        if (signal(SIGXFSZ, SIG_IGN) == SIG_ERR || setrlimit(RLIMIT_FSIZE, &limit) != 0)
            _exit(99);
    }
}

static int is_failing(int file)
{
    struct stat found;
    return fails && fstat(file, &found) == 0 && found.st_dev == failing.st_dev && found.st_ino == failing.st_ino;
}

ssize_t read(int file, void *to, size_t size)
{
    ssize_t given = syscall(SYS_read, file, to, size < pieces ? size : pieces);
    if (given == 0 && size > 0 && is_failing(file)) {
        errno = EIO;
        return -1;
    }
    return given;
}
