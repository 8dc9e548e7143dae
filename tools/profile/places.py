"""From an offset in a turned text, as msc names it, to the file and the line that it comes from."""

from .clean import MARKER


def place_of(text, offset):
    """The file and the line of a byte, by the linemarkers in front of it."""
    file, line = None, 0
    for row in text[:offset].decode("utf-8", "surrogateescape").split("\n"):
        marker = MARKER.match(row)
        if marker:
            file, line = marker.group(2) or file, int(marker.group(1)) - 1
        else:
            line += 1
    return file, line
