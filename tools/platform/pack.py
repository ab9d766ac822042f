#!/usr/bin/env python3
"""pack.py FOLDER TIME: FOLDER.tar.gz and FOLDER.zip, the same bytes each time: entries in the order of their names, owner 0, one mode for files and one for
folders, and one time for all, in seconds since 1970."""
import gzip
import os
import sys
import tarfile
import time
import zipfile


def entries(folder):
    """Every file and folder, by its path from the folder's own parent, in order."""
    parent, found = os.path.dirname(folder), [folder]
    for at, folders, files in os.walk(folder):
        found += [os.path.join(at, name) for name in folders + files]
    return sorted((os.path.relpath(path, parent).replace(os.sep, "/"), path) for path in found)


def main(folder, when):
    folder, when = os.path.abspath(folder), int(when)
    with open(folder + ".tar.gz", "wb") as out, \
            gzip.GzipFile(filename="", mode="wb", fileobj=out, mtime=0) as pressed, \
            tarfile.open(fileobj=pressed, mode="w", format=tarfile.USTAR_FORMAT) as tar:
        for name, path in entries(folder):
            entry = tar.gettarinfo(path, name)
            entry.uid = entry.gid = 0
            entry.uname = entry.gname = ""
            entry.mtime, entry.mode = when, 0o755 if entry.isdir() else 0o644
            if entry.isdir():
                tar.addfile(entry)
            else:
                with open(path, "rb") as file:
                    tar.addfile(entry, file)
    with zipfile.ZipFile(folder + ".zip", "w", zipfile.ZIP_DEFLATED) as out:
        for name, path in entries(folder):
            if os.path.isdir(path):
                continue
            entry = zipfile.ZipInfo(name, time.gmtime(when)[:6])
            entry.create_system, entry.external_attr, entry.compress_type = 3, 0o100644 << 16, zipfile.ZIP_DEFLATED
            with open(path, "rb") as file:
                out.writestr(entry, file.read())


if __name__ == "__main__":
    main(*sys.argv[1:])
