#!/bin/sh
# Refuses each allocation, read, write, opening and start of a thread of the program in turn, over some scripts and
# pipelines of cases/: the program has to end as it does elsewhere, or with the status of what was refused.
# tools/refuse.py says more. The program is the one that STREAMS of the environment names, or else that which was built
# last.
set -eu
root=$(CDPATH='' cd -- "$(dirname -- "$0")/.." && pwd)
exec python3 -B "$root/tools/refuse.py"
