"""Runs a program from a small process of its own, since a child's peak memory counts what its parent had."""
import subprocess
import sys

# what it prints are processor seconds, peak megabytes and the status; a limit of 0 is none
LAUNCHER = """
import os, resource, sys
seconds, octets, sink = (int(word) for word in sys.argv[1:4])
child = os.fork()
if child == 0:
    os.dup2(sink, 1)
    os.dup2(os.open(os.devnull, os.O_WRONLY), 2)
    if seconds:
        resource.setrlimit(resource.RLIMIT_CPU, (seconds, seconds + 1))
    if octets:
        resource.setrlimit(resource.RLIMIT_AS, (octets, octets))
    os.execv(sys.argv[4], sys.argv[4:])
_, status, used = os.wait4(child, 0)
print(used.ru_utime + used.ru_stime, used.ru_maxrss / 1024, os.waitstatus_to_exitcode(status))
"""


def launched(command, source, sink, seconds=0, octets=0):
    """Processor seconds, peak megabytes (at least the some 5 of the launcher) and status of one run, in limits of seconds and octets."""
    words = [sys.executable, "-S", "-c", LAUNCHER, str(seconds), str(octets), str(sink.fileno()), *command]
    told = subprocess.run(words, stdin=source, stdout=subprocess.PIPE, pass_fds=[sink.fileno()], check=True).stdout.split()
    return float(told[0]), float(told[1]), int(told[2])
