"""The Rattle kit, whose command `rt` proves and builds."""
import os
import pathlib
import shutil
import subprocess

import exits

# The kit with which everything was proved last, and its logic: what checks a proof. Kits of several names have the same logic.
NAME, LOGIC = "rattle-kit-13f", "dac8208d650f15bf"


def said(word):
    """What `rt` says, by both of its outputs."""
    try:
        return subprocess.run(["rt", word], stdin=subprocess.DEVNULL, stdout=subprocess.PIPE, stderr=subprocess.STDOUT, text=True, errors="replace").stdout.strip()
    except OSError as error:
        raise exits.Stop(exits.NO_PROCESS, f"rt can't be started: {error.strerror}") from None


def require():
    """Stops where `rt` isn't there or has another logic. STREAMS_KIT=any takes any."""
    if shutil.which("rt") is None:
        raise exits.Stop(exits.NO_TOOL, f"the command rt, which proves and builds the program, isn't found: put a Rattle kit with logic {LOGIC} on PATH, as {NAME}")
    told = said("version")
    name, _, logic = told.partition(" logic ")
    if logic != LOGIC:
        if os.environ.get("STREAMS_KIT") != "any":
            raise exits.Stop(
                exits.OTHER_KIT, f"rt is of {told or 'an unknown kit'}, and this is proved with logic {LOGIC}: put a kit with that on PATH, as {NAME}, or set STREAMS_KIT=any to try this one"
            )
    elif name != NAME:
        exits.say(f"rt is of {name}, which has the same logic as {NAME}, with which this was proved last")


def keeps():
    """Whether `rt ci` keeps what it proved for a later run. A kit in which it does has a word for a run that keeps nothing."""
    return "--anew" in said("help")


def keeps_beside():
    """Whether a run of `rt ci` can take at once what another one proves. That is kept beside the kit, where somebody else's kit lets nobody write."""
    return keeps() and os.access(pathlib.Path(shutil.which("rt")).resolve().parent.parent.parent, os.W_OK)
