#!/usr/bin/env bash
# Tries the wrong bodies of mutants/: the prover must refuse each of them. It is no part of the gate.
#
# usage: tools/mutants.sh [CRATE ..]
#
# mutants/CRATE/NAME.edit is an edit as those of crates/CRATE/must-fail/: a file, and pairs of lines, old and new. They are tried over the libraries that
# a gate has built in this checkout, so run this behind one, on the same files: for each crate whose bodies or contracts change, and for all before a
# release. First each of the crates named, or of all, is checked as it stands, and then each of its edits over what that check proved, as many side
# by side as there are processors.
#
# It prints each edit that is still proved, each that can't be tried, and each that is refused only because a proof file names what the edit
# took away or for a limit of the prover, which shows little of the contract; then the counts. The status is 0 where each edit was refused.
set -uo pipefail
top=$(cd -- "$(dirname -- "${BASH_SOURCE[0]}")/.." && pwd) || exit 2
room=$(mktemp -d) || exit 2
trap 'rm -rf -- "$room"' EXIT
export top room

# The check of a crate in this folder, over what is kept in that one.
check() { # CRATE KEPT
    local words
    mapfile -t words < "$room/$1/words"
    "${words[@]}" --incremental "$2" < /dev/null 2>&1
}

# Checks a crate as it stands.
begin() { # CRATE
    cd -- "$top/crates/$1" || return
    mkdir -p -- "$room/$1/kept"
    "$top/bench/modules.py" --words "$1" > "$room/$1/words" || return
    check "$1" "$room/$1/kept" > "$room/$1/said" && touch -- "$room/$1/proved"
}

# Makes an edit in a copy of its crate, which is this folder.
edit() { # FILE
    local line file="" old="" whole rest
    while IFS= read -r line; do
        case $line in
            "file: "*) file=${line#file: } ;;
            "old: "*) old=${line#old: } ;;
            "new:"*)
                line=${line#new:}
                whole=$(cat -- "$file" && echo .) || return
                rest=${whole#*"$old"}
                [ "$rest" != "$whole" ] && [ "${rest#*"$old"}" = "$rest" ] || return
                whole=${whole%%"$old"*}${line# }$rest
                printf %s "${whole%.}" > "$file"
                ;;
        esac
    done < "$1"
}

# What a check with an edit came to, by its status and by what it said.
verdict() { # STATUS SAID
    local told names='proofs/.*(has no field|is not in scope|has no `|was not admitted)'
    local unread='is not in scope|has no field|is no name|operand is missing|expected the end|cannot continue'
    told=$(grep -E '^(note: )?[^ :]+:[0-9]+:[0-9]+:' -- "$2" | grep -E ': error|^note: ')
    if [ "$1" = 0 ]; then
        echo "NOT REFUSED: the crate is still proved with it"
    elif [ "$1" = 3 ] && grep -Eq 'antt ran out of|outgrew the memory limit|stopped at the step limit' -- "$2"; then
        echo "refused (only by a limit of the prover)"
    elif [ "$1" != 1 ] || ! tail -n 1 -- "$2" | grep -q '^logic=not-proved'; then
        echo "NOT TRIED: status $1: $(grep -m 1 error -- "$2" | cut -c -200)"
    elif grep -E '^(\./)?(src|specs)/[^:]*:[0-9]+:[0-9]+: error: ' -- "$2" | grep -Eq "error: [^\`]|$unread"; then
        echo "NOT TRIED: the prover can't read it: $(grep -m 1 error -- "$2" | cut -c -200)"
    elif [ -n "$told" ] && ! grep -Evq -- "$names" <<< "$told"; then
        echo "refused (only because a proof file names what it took away)"
    else
        echo refused
    fi
}

# Tries an edit, and says in NAME.came what it came to.
try_edit() { # CRATE/NAME
    local crate=${1%/*} at=$room/$1
    [ -e "$room/$crate/proved" ] || { echo "NOT TRIED: $crate isn't proved as it stands" > "$at.came"; return; }
    mkdir -- "$at" && cd -- "$at" || return
    for part in src specs proofs; do
        [ ! -d "$top/crates/$crate/$part" ] || cp -r -- "$top/crates/$crate/$part" . || return
    done
    if edit "$top/mutants/$1.edit"; then
        cp -r -- "$room/$crate/kept" kept && check "$crate" kept > said
        verdict "$?" said > "$at.came"
    else
        echo "NOT TRIED: an old text doesn't stand once in its file" > "$at.came"
    fi
    rm -rf -- "$at"
}
export -f check begin edit verdict try_edit

crates=("$@")
if [ "$#" = 0 ]; then
    for folder in "$top"/mutants/*/; do crates+=("$(basename -- "$folder")"); done
fi
edits=()
for crate in "${crates[@]}"; do
    if [ ! -d "$top/mutants/$crate" ]; then
        echo "mutants: no wrong bodies of $crate in mutants/" >&2
        exit 2
    fi
    for file in "$top/mutants/$crate"/*.edit; do edits+=("$crate/$(basename -- "$file" .edit)"); done
    mkdir -- "$room/$crate" || exit 2
done
printf '%s\0' "${crates[@]}" | xargs -0 -n 1 -P "$(nproc)" bash -c 'begin "$1"' _
printf '%s\0' "${edits[@]}" | xargs -0 -n 1 -P "$(nproc)" bash -c 'try_edit "$1"' _

tried=0 refused=0 little=0
for crate in "${crates[@]}"; do
    [ -e "$room/$crate/proved" ] || tail -n 3 -- "$room/$crate/said"
    count=0 good=0 weak=0
    for edit in "${edits[@]}"; do
        [ "${edit%/*}" = "$crate" ] || continue
        came=$(cat -- "$room/$edit.came" 2> /dev/null || echo "NOT TRIED")
        count=$((count + 1))
        [ "$came" = refused ] || echo "$edit: $came"
        case $came in refused*) good=$((good + 1)) ;; esac
        case $came in "refused (only"*) weak=$((weak + 1)) ;; esac
    done
    echo "$crate: $count edits, $good refused, $weak of them for a name or a limit"
    tried=$((tried + count)) refused=$((refused + good)) little=$((little + weak))
done
echo "mutants: $tried edits, $refused refused, $little of them for a name or a limit, $((tried - refused)) not refused"
[ "$tried" = "$refused" ]
