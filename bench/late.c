/* Preloaded before the C library, it makes calls of a program late, as a network and a disk do. For bench/streams.py.

   CONNECT_MS   so many milliseconds before a connection is opened: the handshake over a network. (It holds up also
                a program that doesn't wait for the handshake)
   SYNC_MS      and before a file is synced */
#define _GNU_SOURCE
#include <stdlib.h>
#include <sys/socket.h>
#include <sys/syscall.h>
#include <unistd.h>

static void wait_for(const char *name)
{
    if (getenv(name))
        usleep(1e3 * atof(getenv(name)));
}

int connect(int socket, const struct sockaddr *to, socklen_t size)
{
    wait_for("CONNECT_MS");
    return syscall(SYS_connect, socket, to, size);
}

int fsync(int file)
{
    wait_for("SYNC_MS");
    return syscall(SYS_fsync, file);
}

int fdatasync(int file)
{
    wait_for("SYNC_MS");
    return syscall(SYS_fdatasync, file);
}
