#!/bin/sh
# Which lines of the two unchanged files do scripts reach? Prints the lines that are not reached, and
# holds them against uncovered.txt, which says why each of them cannot be.
#
# usage: coverage.sh sample       the recorded sample
#        coverage.sh soak         2,000 generated scripts
#
# Needs llvm-profdata and llvm-cov of LLVM 19 or later; LLVM_BIN names their directory if they are not
# on the path. Nothing is installed.
cd "$(dirname "$0")" || exit 2
bin=${LLVM_BIN:+$LLVM_BIN/}
out=target/coverage
mkdir -p $out

RUSTFLAGS="-C instrument-coverage" LLVM_PROFILE_FILE=$out/build.profraw \
    cargo build --quiet --offline --target-dir $out || exit 2
case $1 in
sample) set -- check ../crates/replay/data ;;
soak) set -- soak --seed 0 --scripts 2000 --lines 60 ;;
*)
    echo "usage: coverage.sh sample|soak" >&2
    exit 2
    ;;
esac
LLVM_PROFILE_FILE=$out/run.profraw $out/debug/oracle "$@" >$out/run.txt || exit 2
"${bin}llvm-profdata" merge -sparse $out/run.profraw -o $out/run.profdata || exit 2
"${bin}llvm-cov" export -format=lcov -instr-profile=$out/run.profdata $out/debug/oracle >$out/run.lcov || exit 2

# FILE LINE for every line that was compiled and never reached.
awk -F: '
    /^SF/ { file = $2; ours = sub(/.*\/out\/engine\//, "", file) && file ~ /(batch_semaphore|clock)\.rs$/ }
    /^DA/ && ours { split($2, line, ","); total++; if (line[2] == 0) print file, line[1] }
    END { print total > "/dev/stderr" }
' $out/run.lcov >$out/missed.txt 2>$out/total.txt

# The same form for the lines that uncovered.txt explains.
awk '!/^#/ && NF { split($2, range, "-"); for (n = range[1]; n <= range[2]; n++) print $1, n }' uncovered.txt |
    sort >$out/explained.txt
sort -o $out/missed.txt $out/missed.txt

echo "$(cat $out/total.txt) lines, $(wc -l <$out/missed.txt) not reached, by: oracle $*"
comm -23 $out/missed.txt $out/explained.txt | sed 's/^/not reached and not explained: /'
comm -13 $out/missed.txt $out/explained.txt | sed 's/^/explained, and reached or not compiled: /'
cmp -s $out/missed.txt $out/explained.txt
