"""The file in which a server keeps an image and the lines of its report together (docs/FORMAT.md)."""

import zlib

import rights

from .words import Trouble

MARK = b"RBS"
VERSION = 1
HEAD = 13                   # bytes of mark, version, length of the image, number of lines
LINE = 24                   # bytes of a line
SUM = 4


def image_of(path, data):
    """The image in it. What is not whole is refused: then neither image nor lines can be trusted."""
    if len(data) < HEAD + SUM:
        raise damaged(path, "it is cut short")
    if int.from_bytes(data[3:5], "big") != VERSION:
        raise damaged(path, "its version is not known")
    length, lines = int.from_bytes(data[5:9], "big"), int.from_bytes(data[9:13], "big")
    if lines > rights.LINES or len(data) != HEAD + length + LINE * lines + SUM:
        raise damaged(path, "its length is not the one that it tells")
    if zlib.crc32(data[:-SUM]) != int.from_bytes(data[-SUM:], "big"):
        raise damaged(path, "its check sum is wrong")
    return data[HEAD:HEAD + length]


def damaged(path, why):
    return Trouble(f"{path}: this saved book with its lines is not accepted: {why}")
