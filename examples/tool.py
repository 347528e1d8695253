"""What the tools of this folder share: files, the help, and one line on standard error for what is wrong."""
import sys


class Wrong(Exception):
    """What is wrong, in one line."""


def wanted(name, line, what):
    return Wrong(f"{name}:{line}: wanted {what}")


def read(name, file):
    """All bytes of a file, which is a path or the number of an open one."""
    try:
        with open(file, "rb", closefd=not isinstance(file, int)) as source:
            return source.read()
    except OSError as fault:
        raise Wrong(f"{name}: can't be read: {fault.strerror}")


def write(name, file, data):
    try:
        with open(file, "wb", closefd=not isinstance(file, int)) as target:
            target.write(data)
    except OSError as fault:
        raise Wrong(f"{name}: can't be written: {fault.strerror}")


def run(help_text, usage, counts, work):
    """Does `work` on the words after the tool's name. Ends with 0, with 1 for a wrong file, with 2 for a wrong call."""
    words = sys.argv[1:]
    try:
        if words == ["--help"]:
            write("standard output", 1, help_text.encode())
        elif len(words) not in counts or any(word.startswith("-") for word in words):
            print(f"usage: {usage} (--help says more)", file=sys.stderr)
            sys.exit(2)
        else:
            work(*words)
    except Wrong as fault:
        print(fault, file=sys.stderr)
        sys.exit(1)
    except KeyboardInterrupt:
        sys.exit(130)
