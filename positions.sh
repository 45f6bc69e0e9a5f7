#!/bin/sh
# Prints the positions of the records of a FASTQ file, or of standard input; proves and builds the program first, where that is not done yet.
#   ./positions.sh examples/small.fastq
#   zcat reads.fastq.gz | ./positions.sh 65536 4096
# The numbers are the window's size (3 to 65536, default 65536) and the most bytes of a chunk (1 to 65536, default the window's size).
set -eu
if [ $# -gt 0 ] && [ -f "$1" ]; then
    exec <"$1"
    shift
fi
cd "$(dirname "$0")"
program=crates/positions/out/positions
if [ ! -x "$program" ] || [ -n "$(find crates/*/* crates.txt -name out -prune -o -newer "$program" -print | head -n 1)" ]; then
    if ! command -v rt >/dev/null; then
        echo "positions.sh: rt, the command of the Rattle toolchain, is not on the PATH; it is needed to build the program" >&2
        exit 2
    fi
    echo "positions.sh: proving and building the program, which takes a minute or two" >&2
    mkdir -p target
    (cd crates/positions && rt run) </dev/null >target/positions.log 2>&1 || {
        cat target/positions.log >&2
        exit 1
    }
    touch "$program" # where nothing changed, rt leaves it as it was
fi
exec "$program" "$@"
