#!/bin/sh
# The instructions of one call, by valgrind: those of the program with TIMES calls less those with none, by TIMES.
# tools/instructions.sh FIELD CALL ROWS COLUMNS TIMES, after `rt run` in crates/bench; TIMES from 1.
set -eu
bench=$(dirname "$0")/../crates/bench/out/bench
count() {
    valgrind --tool=callgrind --callgrind-out-file=/dev/null "$bench" "$@" 2>&1 |
        sed -n 's/.*refs: *//p' | tr -d ,
}
all=$(count "$1" "$2" "$3" "$4" "$5")
none=$(count "$1" "$2" "$3" "$4" 0)
echo "$1 $2 $3 $4: $(((all - none) / $5)) instructions a call, $none to set up"
