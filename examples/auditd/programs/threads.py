"""Threads that end, ids that all take, and a program that one of them starts."""
import os
import subprocess
import threading


def work() -> None:
    """A thread starts a program, and ends."""
    subprocess.run(["id"], check=False)


first = [threading.Thread(target=work) for _ in range(3)]
for thread in first:
    thread.start()
for thread in first:
    thread.join()
waiting = threading.Event()
second = threading.Thread(target=waiting.wait)
second.start()
os.setgroups([])
os.setresgid(3001, 3001, 3001)
os.setresuid(3001, 3001, 0)
os.setresuid(0, 0, 0)
os.setuid(3001)
subprocess.run(["id"], check=False)
waiting.set()
second.join()
os.execvp("id", ["id"])
