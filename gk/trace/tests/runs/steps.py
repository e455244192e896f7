# Steps in one program: a pair of sockets, a file that is mapped to be written, a thread, a child that runs a program.
import mmap
import os
import socket
import subprocess
import threading

ours, theirs = socket.socketpair()
if os.fork() == 0:
    ours.close()
    with open("sheets/1.csv", "rb") as sheet:
        theirs.send(sheet.read())
    os._exit(0)
theirs.close()
ours.recv(99)
ours.close()
with open("book.dat", "r+b") as book, mmap.mmap(book.fileno(), 0) as memory:
    memory[0:1] = b"z"
reader = threading.Thread(target=lambda: open("sheets/2.csv").read())
reader.start()
reader.join()
with open("paybook.csv", "a") as book:
    subprocess.run(["cat", "hours/checked.csv"], stdout=book)
