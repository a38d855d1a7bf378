#!/bin/sh
# Proves the crates that a crate names, and those that they name, and builds them as libraries: scripts/prove.sh CRATE.
# `rt` would prove them one after the other. Here a crate is begun as soon as those that it names are proved, by an
# `rt lib` of its own, as many at a time as there are processors (or RT_JOBS), and those under the longest chain of
# crates first. Prints a line for each that is proved. Exit status: 0 all are proved, 1 one is not, with what rt said.
set -u
top=$(dirname "$(dirname "$(readlink -f "$0")")")
jobs=${RT_JOBS:-$(nproc 2>/dev/null || echo 2)}

# A line for each crate: its name and the crates that it names. The longest chain above it decides the order.
planned() { # CRATE
    awk -v wanted="$1" '
        function visit(n, high, parts, k, count) {
            if (!(n in needs) || high <= above[n]) return
            above[n] = high
            count = split(needs[n], parts, " ")
            for (k = 1; k <= count; k++) visit(parts[k], high + 1)
        }
        { sub(/#.*/, "") }
        i = index($0, ":") { needs[$1 ~ /:$/ ? substr($0, 1, i - 1) : $1] = substr($0, i + 1) }
        END {
            visit(wanted, 1)
            for (n in above) {
                if (n == wanted || !above[n]) continue
                line = above[n] " " n
                count = split(needs[n], parts, " ")
                for (k = 1; k <= count; k++) if (parts[k] in needs) line = line " " parts[k]
                print line
            }
        }' "$top/crates.txt" | sort -k1,1nr -k2 | cut -d' ' -f2-
}

# Proves one crate and builds it as a library for those above it.
prove() { # CRATE
    (cd "$top/crates/$1" && rt lib --jobs 1) >"$room/$1" 2>&1
    echo "$1 $?" >&3
}

are_proved() { # CRATE ..
    for needed; do
        case $proved in *" $needed "*) ;; *) return 1 ;; esac
    done
}

# Begins the crates that can be begun, while there are processors; what is left goes into `waiting`.
begin() {
    left=
    while read -r crate needs; do
        # shellcheck disable=SC2086
        if [ -n "$crate" ] && [ "$running" -lt "$jobs" ] && are_proved $needs; then
            prove "$crate" &
            running=$((running + 1))
        elif [ -n "$crate" ]; then
            left="$left$crate $needs
"
        fi
    done <<EOF
$waiting
EOF
    waiting=$left
}

room=$(mktemp -d) || exit 1
trap 'rm -rf "$room"' EXIT
trap 'exit 129' HUP
trap 'exit 130' INT
trap 'exit 143' TERM
mkfifo "$room/ended" || exit 1
exec 3<>"$room/ended"
waiting=$(planned "$1") proved=' ' running=0
begin
while [ "$running" -gt 0 ]; do
    read -r crate status <&3
    running=$((running - 1))
    if [ "$status" -ne 0 ]; then
        cat "$room/$crate"
        wait
        exit 1
    fi
    echo "rt: $crate proved"
    proved="$proved$crate "
    begin
done
