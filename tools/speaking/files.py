"""Why a file could not be read or written, as the system says it."""
import os, stat

from speaking.texts import do, means, sentences, short
from speaking.words import form_of, read_files, written_files


def plain(file):
    """A plain file, opened to be read: a pipe or a terminal would wait for more, or show something else."""
    if not stat.S_ISREG(os.stat(file).st_mode):
        raise OSError(f"{file} is no plain file")
    return open(file, "rb")


def reading(file):
    """Why a file can't be read, or nothing."""
    try:
        mode = os.stat(file).st_mode
        if stat.S_ISREG(mode) or stat.S_ISDIR(mode):
            open(file, "rb").close()
    except OSError as error:
        return error.strerror
    return None


def writing(file):
    """Why a file can't be written, or nothing; nothing is written to find out."""
    folder = os.path.dirname(os.path.abspath(file))
    if os.path.isdir(file):
        return os.strerror(21)
    if not os.path.isdir(folder):
        return os.strerror(20 if os.path.exists(folder) else 2)
    if not os.access(file if os.path.exists(file) else folder, os.W_OK):
        return os.strerror(13)
    if len(os.path.basename(file).encode()) > 255:
        return os.strerror(36)
    if file == "/dev/full" or no_space(folder):
        return os.strerror(28)
    return None


def no_space(folder):
    """Whether no block of a folder's disk is free."""
    disk = os.statvfs(folder)
    return disk.f_blocks > 0 and disk.f_bavail == 0


def not_read(words):
    """The first file that can't be read, with the system's reason."""
    for name, file in read_files(words, form_of(words) or {}):
        why = reading(file)
        if why:
            return sentences(f"{name}, `{short(file, 200)}`, could not be read: {why}", do("status", 7))
    return sentences(means("status", 7), do("status", 7))


def not_written(words):
    """The file that can't be written, with the system's reason; else it was standard output."""
    for name, file in written_files(words, form_of(words) or {}):
        why = writing(file)
        if why:
            return sentences(f"{name}, `{short(file, 200)}`, could not be written: {why}", do("status", 8))
    named = ", or the file ended before its end was written" if list(written_files(words, form_of(words) or {})) else ""
    return sentences(f"the answer could not be written to standard output{named}: it is closed, or its disk is full", do("status", 8))
