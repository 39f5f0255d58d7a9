"""Branches' time zones: a zone's standard time, and the file that names each branch's zone, as `ops/setup` writes it.

A till dates its entries by its zone's standard time all year, so that moments never go back. What these scripts take for now at a branch is of the same time.
"""
import datetime
import os
import re
import zoneinfo

from chain_files import Wrong

UTC = datetime.timezone.utc
LINE = re.compile(r"([1-9]\d{0,8})\s*=\s*(\S+)")
DAYS = 366


def standard_offset(zone):
    """Returns the offset of a zone's standard time: the smallest one that it has now and over the next year. Fails with status 2 if there is no such zone."""
    if found := re.fullmatch(r"([+-])([01]\d|2[0-3]):([0-5]\d)", zone):
        offset = datetime.timedelta(hours=int(found[2]), minutes=int(found[3]))
        return -offset if found[1] == "-" else offset
    if zone == "UTC":
        return datetime.timedelta()
    try:
        of = zoneinfo.ZoneInfo(zone)
    except (zoneinfo.ZoneInfoNotFoundError, ValueError, OSError):
        raise Wrong(f"there is no zone {zone:.80}: it is a name of the zone database, as America/Edmonton, or an offset, as -07:00", 2) from None
    now = datetime.datetime.now(UTC)
    return min((now + datetime.timedelta(days=day)).astimezone(of).utcoffset() for day in range(DAYS + 1))


def offset_text(offset):
    """Returns an offset as the reports take it, as -07:00."""
    minutes = int(offset.total_seconds()) // 60
    return f"{'-' if minutes < 0 else '+'}{abs(minutes) // 60:02d}:{abs(minutes) % 60:02d}"


def moment_at(moment, offset):
    """Returns a moment of UTC by the clock of an offset."""
    return (datetime.datetime.fromisoformat(moment) + offset).isoformat()


def utc_now():
    """Returns this second in UTC, as a moment."""
    return datetime.datetime.now(UTC).strftime("%Y-%m-%dT%H:%M:%S")


def read_zones(path):
    """Returns the zone of each branch of a file, whose lines are as `1 = America/Edmonton`; none if there is no file. Fails with status 2 if a line is another one, or there is no such zone."""
    if path is None or not os.path.exists(path):
        return {}
    found = {}
    with open(path, encoding="utf-8", errors="replace") as it:
        lines = [line.strip() for line in it]
    for line in lines:
        if not line or line.startswith("#"):
            continue
        words = LINE.fullmatch(line)
        if not words or int(words[1]) in found:
            raise Wrong(f"{path}: a line is a branch's number and its zone, as 1 = America/Edmonton, once for each branch, and not {line:.80}", 2)
        standard_offset(words[2])
        found[int(words[1])] = words[2]
    return found


def zones_text(zones):
    """Returns the text of such a file."""
    return "".join(f"{branch} = {zone}\n" for branch, zone in sorted(zones.items()))
