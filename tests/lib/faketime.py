"""A host's clock that is not what it is, by libfaketime: programs load it first."""

import glob

import tools

LIBRARIES = "/usr/lib/*/faketime/libfaketime.so.1"
# of 365.25 days, in seconds
YEAR = 31_557_600


def library():
    """The path of libfaketime, or none."""
    tools.tool(("faketime",), "faketime")
    return next(iter(sorted(glob.glob(LIBRARIES))), None)


def years_ahead(scene, years):
    """Words before a program's, by which it sees a clock so many years ahead, or none where nothing gives that."""
    return seconds_ahead(scene, years * YEAR)


def seconds_ahead(scene, seconds):
    """The same, of a clock so many seconds ahead."""
    path = library()
    if not path:
        scene.passes_over("a clock that is ahead, since there is no libfaketime (FLEET_INSTALL=1 has it installed)")
        return None
    return "env", f"LD_PRELOAD={path}", f"FAKETIME={seconds:+d}", "FAKETIME_DONT_FAKE_MONOTONIC=1"
