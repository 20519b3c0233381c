#!/bin/sh
# Runs random pipelines on 0 to 8 workers, several beside each other, and compares what they write, and how they end,
# with runs of the same stages on no worker and with what oracle/ says of them. Words: how many pipelines (1000), and
# a number that gives them (0). The program is the one that STREAMS of the environment names, or else that which was
# built last.
set -eu
root=$(CDPATH='' cd -- "$(dirname -- "$0")/.." && pwd)
exec python3 -B "$root/tools/soak.py" --count "${1:-1000}" --seed "${2:-0}"
