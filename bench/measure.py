"""What the scripts here measure of a program."""
import os
import resource
import subprocess
import sys

RUNS = 3


def used(*words):
    """The least seconds of processor time of some runs of a command, and the greatest resident memory in bytes."""
    seconds, memory = [], 0
    for _ in range(RUNS):
        process = subprocess.Popen(words, stdout=subprocess.DEVNULL)
        _, status, usage = os.wait4(process.pid, 0)
        if status != 0:
            sys.exit(f"{' '.join(words)}: status {os.waitstatus_to_exitcode(status)}")
        seconds.append(usage.ru_utime + usage.ru_stime)
        memory = max(memory, usage.ru_maxrss * 1024)
    return min(seconds), memory


def answered(*words):
    """What a command prints, its seconds of processor time, and its greatest resident memory in bytes. It has 3 GiB of
    addresses and a minute."""
    def limited():
        resource.setrlimit(resource.RLIMIT_AS, (3 << 30, 3 << 30))
        resource.setrlimit(resource.RLIMIT_CPU, (60, 60))
    process = subprocess.Popen(words, preexec_fn=limited, stdout=subprocess.PIPE, stderr=subprocess.STDOUT, text=True)
    answer = process.stdout.read()
    _, _, usage = os.wait4(process.pid, 0)
    return answer, usage.ru_utime + usage.ru_stime, usage.ru_maxrss * 1024
