"""Whole runs of a program at less cost than by `subprocess.run`, for tests that make thousands of them."""
import os
import select
import signal
import subprocess

# The bytes that any pipe takes before it is read
PIPE_SIZE = 4096
# What Python ignores, but not what it starts
HEEDED = signal.SIGPIPE, signal.SIGXFSZ


def spawn(command, given, environment, patience):
    """A run with these bytes on standard input, at most PIPE_SIZE: its status, and what it prints on standard output
    and on standard error. The run is killed if it prints nothing for so many seconds."""
    (source, feed), (output, printed), (errors, told) = [os.pipe() for _ in range(3)]
    os.write(feed, given)
    ends = [(os.POSIX_SPAWN_DUP2, handle, place) for place, handle in enumerate((source, printed, told))]
    process = os.posix_spawn(command[0], command, environment, file_actions=ends, setsigdef=HEEDED)
    for handle in source, feed, printed, told:
        os.close(handle)
    texts = read_pipes((output, errors), process, patience)
    status = os.waitstatus_to_exitcode(os.waitpid(process, 0)[1])
    if status == -signal.SIGKILL:
        raise subprocess.TimeoutExpired(command, patience)
    return status, *texts


def read_pipes(handles, process, patience):
    """What a run writes to each of these pipes, to its end, read as it comes."""
    waiting, parts = select.poll(), {handle: [] for handle in handles}
    for handle in handles:
        waiting.register(handle, select.POLLIN)
    open_ones = len(handles)
    while open_ones:
        ready = waiting.poll(1000 * patience)
        if not ready:
            os.kill(process, signal.SIGKILL)
        for handle, _ in ready:
            parts[handle].append(os.read(handle, 65_536))
            if not parts[handle][-1]:
                waiting.unregister(handle)
                os.close(handle)
                open_ones -= 1
    return [b"".join(parts[handle]) for handle in handles]
