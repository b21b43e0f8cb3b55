"""Files that the tools read and write as a whole."""
import os

from refused import Refused


def reason_of(error):
    return error.strerror or str(error)


def read_file(path):
    try:
        with open(path, "rb") as file:
            return file.read()
    except OSError as error:
        raise Refused(f"{path}: {reason_of(error)}") from error


def write_file(path, data):
    """Writes a whole file, or leaves what is there. A link is followed, and a device is written to as it is."""
    target = os.path.realpath(path)
    is_whole = os.path.isfile(target) or not os.path.exists(target)
    beside = f"{target}.{os.getpid()}" if is_whole else target
    try:
        with open(beside, "wb") as file:
            file.write(data)
        if is_whole:
            os.replace(beside, target)
    except OSError as error:
        raise Refused(f"{path}: {reason_of(error)}") from error
    finally:
        if is_whole and os.path.exists(beside):
            os.unlink(beside)
