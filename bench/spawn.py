"""Runs one command, and prints its status, its processor time in seconds (user and system) and its most memory in KiB.

It is a process of its own, with as few modules as may be, since Linux counts to a process's most memory what the one
that started it has.

usage: python3 -I -S spawn.py INPUT OUTPUT ERRORS COMMAND ..
"""
import os
import sys


def main():
    source, *sinks = sys.argv[1:4]
    actions = [(os.POSIX_SPAWN_OPEN, 0, source, os.O_RDONLY, 0)]
    for number, sink in enumerate(sinks, 1):
        actions.append((os.POSIX_SPAWN_OPEN, number, sink, os.O_WRONLY | os.O_CREAT | os.O_TRUNC, 0o600))
    command = sys.argv[4:]
    process = os.posix_spawnp(command[0], command, os.environ, file_actions=actions)
    _, status, usage = os.wait4(process, 0)
    print(os.waitstatus_to_exitcode(status), usage.ru_utime + usage.ru_stime, usage.ru_maxrss)


main()
