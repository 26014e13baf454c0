#!/bin/sh
# Builds each deliberate fault and holds it against the recorded sample: every fault must show.
# usage: faults/try-all.sh [NAME...]     (all of them without a name)
cd "$(dirname "$0")/.." || exit 2
names="$*"
[ -n "$names" ] || names=$(cd faults && ls ./*.patch | sed 's|^\./||; s|\.patch$||')
hidden=0
mkdir -p target
for name in $names; do
    if ! ORACLE_FAULT=$name cargo build --quiet --offline --profile faults 2>target/faults.log; then
        printf '%-50s does not build\n' "$name"
        cat target/faults.log
        hidden=$((hidden + 1))
        continue
    fi
    shown=$(target/faults/oracle check ../crates/replay/data 2>/dev/null | sed -n 2p)
    printf '%-50s %s\n' "$name" "$shown"
    case $shown in
    0\ * | '') hidden=$((hidden + 1)) ;;
    esac
done
echo "$hidden faults do not show"
[ "$hidden" -eq 0 ]
