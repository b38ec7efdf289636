"""What the scripts share: the crates of the repository, lowest first, and the folder of the kit."""
import os
import subprocess

TOP = os.path.dirname(os.path.dirname(os.path.realpath(__file__)))


def crates():
    """Each crate of crates.txt with the crates of the repository that it names, each after those that it names."""
    named, ordered = {}, {}
    with open(f"{TOP}/crates.txt", encoding="utf-8") as lines:
        for line in lines:
            name, colon, words = line.partition("#")[0].partition(":")
            if colon:
                named[name.split()[0]] = words.split()

    def add(name):
        for below in named[name]:
            if below in named and below not in ordered:
                add(below)
        ordered.setdefault(name, [it for it in named[name] if it in named])

    for name in named:
        add(name)
    return ordered


def below(name):
    """The crates that a crate stands on, lowest first, and the crate itself at the end."""
    found, of = [], crates()

    def add(it):
        for other in of[it]:
            add(other)
        if it not in found:
            found.append(it)

    add(name)
    return found


def folder_of_kit():
    """The folder that the kit's `rt` stands in, by the page that it tells to read first."""
    return os.path.dirname(subprocess.run(["rt", "doc"], check=True, capture_output=True, text=True).stdout.strip())


def memory_free():
    """The memory that is free, in bytes."""
    with open("/proc/meminfo", encoding="utf-8") as lines:
        return next(int(it.split()[1]) * 1024 for it in lines if it.startswith("MemAvailable"))
