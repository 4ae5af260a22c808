#!/usr/bin/env python3
"""The plain loops of bench/plain.c that bench/machine_folder needs, in Python: they make the same calls of the system, but
that what is copied is read at once.
plain.py read FOLDER         lists the folder and reads each file in it, in the order of their names, and the same below it
plain.py write FOLDER FROM   gives the files named on standard input, a path a line, below FOLDER the bytes that they have
                             below FROM, in place; syncs each, and FOLDER
plain.py write-data FOLDER FROM   the same, where files are synced by fdatasync, as the program does, and not by fsync
Each prints its seconds, without those in which Python starts; a loop that writes reads what it writes before them."""
import os
import sys
import time

PIECE = 65_536


def read_file(path):
    file = os.open(path, os.O_RDONLY)
    while os.read(file, PIECE):
        pass
    os.close(file)


def read_folder(folder):
    with os.scandir(folder) as entries:
        for entry in sorted(entries, key=lambda entry: entry.name):
            if entry.is_file(follow_symlinks=False):
                read_file(entry.path)
            elif entry.is_dir(follow_symlinks=False):
                read_folder(entry.path)


def load(folder, source):
    """The paths to write, with their bytes."""
    changes = []
    for line in sys.stdin:
        name = line.rstrip("\n")
        with open(f"{source}/{name}", "rb") as file:
            changes.append((f"{folder}/{name}", file.read()))
    return changes


def write_file(path, content):
    file = os.open(path, os.O_WRONLY | os.O_CREAT, 0o666)
    held = os.fstat(file).st_size
    os.write(file, content)
    if held > len(content):
        os.ftruncate(file, len(content))
    os.close(file)


def sync_path(path, sync_open):
    file = os.open(path, os.O_RDONLY)
    sync_open(file)
    os.close(file)


def write_all(folder, changes, sync_file):
    for path, content in changes:
        write_file(path, content)
    for path, _ in changes:
        sync_path(path, sync_file)
    sync_path(folder, os.fsync)


def main(how, folder, source=None):
    if how == "read":
        start = time.monotonic()
        read_folder(folder)
    else:
        changes = load(folder, source)
        start = time.monotonic()
        write_all(folder, changes, {"write": os.fsync, "write-data": os.fdatasync}[how])
    print(f"{time.monotonic() - start:.6f}")


main(*sys.argv[1:])
