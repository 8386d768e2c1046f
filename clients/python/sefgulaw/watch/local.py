"""Which file systems tell of each change that is made in them.

Those that other machines or other programs write into tell of their own side's changes alone. So
the local ones are named here, and every other one is taken to tell nothing.
"""

from __future__ import annotations

import ctypes
import os
import re

_LOCAL = {
    0xEF53: "ext2, ext3, ext4",
    0x58465342: "xfs",
    0x9123683E: "btrfs",
    0x01021994: "tmpfs",
    0x858458F6: "ramfs",
    0x794C7630: "overlayfs",
    0x61756673: "aufs",
    0x2FC12FC1: "zfs",
    0xF2F52010: "f2fs",
    0xCA451A4E: "bcachefs",
    0x3153464A: "jfs",
    0x52654973: "reiserfs",
    0x3434: "nilfs2",
    0x4D44: "vfat",
    0x2011BAB0: "exfat",
    0x7366746E: "ntfs3",
    0x482B: "hfsplus",
    0xF15F: "ecryptfs",
    0x73717368: "squashfs",
    0xE0F5E1E2: "erofs",
    0x9660: "iso9660",
}
_MOUNTS = "/proc/self/mounts"
_OCTAL = re.compile(rb"\\([0-7]{3})")


def _tells(path: bytes) -> bool:
    buffer = ctypes.create_string_buffer(512)
    library = ctypes.CDLL(None, use_errno=True)
    if library.statfs(path, buffer) != 0:
        return False
    return ctypes.c_ulong.from_buffer(buffer).value & 0xFFFFFFFF in _LOCAL


def _mounts_below(path: bytes) -> list[bytes]:
    real = os.path.realpath(path)
    prefix = real if real.endswith(b"/") else real + b"/"
    try:
        with open(_MOUNTS, "rb") as file:
            lines = file.read().splitlines()
    except OSError:
        return []
    points = (_OCTAL.sub(lambda it: bytes([int(it[1], 8)]), line.split()[1]) for line in lines)
    return [point for point in points if point.startswith(prefix)]


def is_local(path: bytes) -> bool:
    """Tells whether a directory, and what is mounted below it, tells of each change."""
    return _tells(path) and all(_tells(point) for point in _mounts_below(path))
