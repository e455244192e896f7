# The tax step: one thread writes the pay book, another asks for an hours sheet meanwhile, and a third runs a program.
import os
import threading

opened, asked = threading.Event(), threading.Event()


def writes():
    with open("paybook.csv", "a") as book:
        opened.set()
        asked.wait()
        book.write("2;2\n")


def reads():
    opened.wait()
    with open("sheets/1.csv") as sheet:
        sheet.read()
    asked.set()


threads = [threading.Thread(target=run) for run in (writes, reads)]
for thread in threads:
    thread.start()
for thread in threads:
    thread.join()
with open("sheets/2.csv") as sheet:
    sheet.read()
last = threading.Thread(target=lambda: os.execv("/bin/cat", ["cat", "hours/checked.csv"]))
last.start()
last.join()
