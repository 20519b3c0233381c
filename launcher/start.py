#!/usr/bin/env python3
"""What `./streams` does where the program isn't built or is older than its sources: it has it proved and built, and answers small jobs meanwhile."""
import os
import signal
import sys

import build
import exits
import first
import given
import kit
import sources


def run(words):
    """Becomes the proved program."""
    given.restore()
    os.execv(sources.BUILT, [sources.PROGRAM, *words])


def main(words):
    # As the program has it, a process that is told to end by Ctrl-C just ends, unless who started it had that ignored.
    if signal.SIGINT in build.ENDS:
        signal.signal(signal.SIGINT, signal.SIG_DFL)
    given.keep_closed()
    try:
        if not sources.is_built():
            if sources.BUILT.exists():
                exits.say("the program is older than its sources")
            kit.require()
            answers = not os.environ.get("STREAMS_PROVED")
            answer = first.answer(words) if answers else None
            if answer is not None:
                return answer
            build.wait(started=answers)
        run(words)
    except exits.Stop as why:
        exits.say(why)
        return why.status
    except OSError as error:
        exits.say(f"{error.filename or 'a file'} can't be used: {error.strerror}")
        return exits.NO_FOLDER


if __name__ == "__main__":
    sys.exit(main(sys.argv[1:]))
