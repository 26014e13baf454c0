#!/bin/sh
# Puts a deliberate fault into a copy of OUR side, compiles it without its proofs (rt try), and holds it
# against the recorded sample: every fault must show. The faults are the must-fail edits of code in the crates
# that `replay` rests on, which the proofs refuse too, and those of faults/ours. faults/ours/never.txt has
# those that the sample does not show; they are left out.
# usage: faults/try-ours.sh [CRATE/LABEL...]     (all of them without a name)
cd "$(dirname "$0")/../.." || exit 2
top=$PWD
copy=$top/target/faulty
rm -rf "$copy"
mkdir -p "$copy"
tar -cf - --exclude=out crates crates.txt | tar -xf - -C "$copy"

# The crates that `replay` rests on, from crates.txt, in its order.
crates=$(awk -F: '
    /^[a-z]/ { name[++n] = $1; needs[$1] = $2 }
    END {
        wanted["replay"] = 1
        for (i = n; i; i--)
            if (wanted[name[i]]) {
                split(needs[name[i]], below, " ")
                for (j in below) wanted[below[j]] = 1
            }
        for (i = 1; i <= n; i++) if (wanted[name[i]] && name[i] != "replay") print name[i]
    }' crates.txt)

# Whether the edit $1 of the crate $2 changes code, and not a contract.
changes_code() {
    file=$(sed -n 's/^file: //p' "$1")
    case $file in
    src/*) ! grep -F -- "$(sed -n 's/^old: //p' "$1" | head -n 1)" "crates/$2/$file" | grep -qE '^ *(requires|ensures) ' ;;
    *) false ;;
    esac
}

names="$*"
if [ -z "$names" ]; then
    for crate in $crates; do
        for edit in "crates/$crate/must-fail/"*.edit "oracle/faults/ours/$crate/"*.edit; do
            name=$crate/$(basename "$edit" .edit)
            [ -f "$edit" ] && changes_code "$edit" "$crate" && ! grep -q "^$name " oracle/faults/ours/never.txt &&
                names="$names $name"
        done
    done
fi

# Applies the edit $1 to the crate $2 of the copy. What is replaced must stand there once.
apply() {
    while IFS= read -r line; do
        case $line in
        'file: '*) file=$copy/crates/$2/${line#file: } ;;
        'old: '*) old=${line#old: } ;;
        'new:'*)
            new=${line#new:}
            OLD=$old NEW=${new# } awk '
                { text = text $0 "\n" }
                END {
                    at = index(text, ENVIRON["OLD"])
                    behind = substr(text, at + length(ENVIRON["OLD"]))
                    if (!at || index(behind, ENVIRON["OLD"])) exit 1
                    printf "%s%s%s", substr(text, 1, at - 1), ENVIRON["NEW"], behind
                }' "$file" >"$copy/edited" && cp "$copy/edited" "$file" || return 1
            ;;
        esac
    done <"$1"
}

# What the log of a run says: where the sample showed the fault, or that the program did not end well; or that
# nothing was found.
found() {
    shown=$(sed -n 's/^script [0-9]*, line [0-9]*$/found: &/p; s/^checked: \(fault.*\|no-answer.*\|ended status=[1-9].*\)/found: it \1/p' "$copy/log" | head -n 1)
    if [ -n "$shown" ]; then
        echo "$shown"
    elif grep -q '^checked: ended status=0' "$copy/log"; then
        echo 'NOT FOUND'
    else
        echo "see below: $(grep -m 1 -E 'error|rt:' "$copy/log" | cut -c1-200)"
    fi
}

# The program runs in a folder with copies of the scripts and of the states that were recorded.
data=
for file in crates/replay/data/*; do data="$data --data ${file##*/}=data/${file##*/}"; done

hidden=0
for name in $names; do
    crate=${name%/*}
    edit=$top/crates/$crate/must-fail/${name#*/}.edit
    [ -f "$edit" ] || edit=$top/oracle/faults/ours/$name.edit
    cp "crates/$crate/src/"*.rt "$copy/crates/$crate/src/"
    if apply "$edit" "$crate"; then
        # shellcheck disable=SC2086
        (cd "$copy/crates/replay" && timeout 300 rt try --steps 1000 $data) >"$copy/log" 2>&1
        shown=$(found)
    else
        shown='does not apply'
    fi
    case $shown in found*) ;; *) hidden=$((hidden + 1)) ;; esac
    printf '%-45s %s\n' "$name" "$shown"
    cp "crates/$crate/src/"*.rt "$copy/crates/$crate/src/"
done
echo "$hidden faults do not show"
rm -rf "$copy"
[ "$hidden" -eq 0 ]
