# What the scripts in bin/ share; sourced by them. A script sets `top` (the repository), `name` (its own name) and
# `help` (what --help prints, its first line the usage), and then asks a program:
#
#     options "$@" && shift "$taken"      takes -v, -h, --help and --
#     answers PROGRAM FRONT FILE ..       runs target/bin/PROGRAM on each file, or on standard input where none is
#                                         named; FRONT, if not empty, is put before each input
#     exit "$status"
#
# Exit status: 0 an answer, 1 a refusal, 2 bad usage, 3 no answer, because something could not be read, written,
# built or run. Of several files the greatest counts.
#
# The programs themselves end with status 0 for an answer and for a refusal, of which they write at least two lines. One
# that fails says so on standard error, writes nothing, or nothing further, and ends with status 1. So the output is
# taken whole, looked at, and written on.

status=0
words=0
lend=''

# A sentence on standard error.
say() {
    printf '%s: %s\n' "$name" "$*" >&2
}

worse() { # STATUS
    if [ "$1" -gt "$status" ]; then status=$1; fi
}

# No answer: a sentence, and the status 3.
unanswered() {
    say "$*"
    worse 3
}

usage() {
    printf '%s\n' "$help" | sed 1q >&2
    exit 2
}

# The options at the front; how many words they took.
options() {
    taken=0
    while [ $# -gt 0 ]; do
        case $1 in
        -v) words=1 ;;
        -h | --help)
            printf '%s\n' "$help"
            exit 0
            ;;
        --)
            taken=$((taken + 1))
            return
            ;;
        -?*)
            say "no option $1"
            usage
            ;;
        *) return ;;
        esac
        taken=$((taken + 1))
        shift
    done
}

# A folder of our own, removed at the end; nothing where it cannot be made.
room() {
    if [ -z "$lend" ]; then
        lend=$(mktemp -d) || return
        trap 'rm -rf "$lend"' EXIT
        trap 'exit 129' HUP
        trap 'exit 130' INT
        trap 'exit 143' TERM
    fi
}

# The crates that a crate needs, itself among them, a line each.
crates_of() { # CRATE
    awk -v wanted="$1" '
        function visit(n, parts, k, count) {
            if (n in seen || !(n in needs)) return
            seen[n] = 1
            print n
            count = split(needs[n], parts, " ")
            for (k = 1; k <= count; k++) visit(parts[k])
        }
        { sub(/#.*/, "") }
        i = index($0, ":") { needs[substr($0, 1, i - 1)] = substr($0, i + 1) }
        END { visit(wanted) }' "$top/crates.txt"
}

# Is the program there, and no older than what it is made of? Where it is installed its sources are not there.
is_built() { # PROGRAM
    [ -x "$top/target/bin/$1" ] || return 1
    [ -e "$top/crates.txt" ] || return 0
    [ -z "$(cd "$top/crates" && find $(crates_of "$1") -name out -prune -o \( -name '*.rt' -o -name '*.antt' \) -newer "../target/bin/$1" -print)" ]
}

# Proves and builds the program, and says how far it is.
build() { # PROGRAM
    if ! command -v rt >/dev/null 2>&1; then
        say "the program is not built yet (or older than its sources), and the command \`rt\` of the Rattle kit, which proves and builds it, is not found: see README.md, \"Run\""
        return 1
    fi
    count=$(crates_of "$1" | wc -l)
    say "the program is proved and built first: $((count)) crates, some minutes where none is proved yet"
    mkdir -p "$top/target/bin" || return 1
    log=$top/target/build-$1.log
    {
        # `rt run` proves, builds and runs; what the program answers to no input is not looked at
        ("$top/scripts/prove.sh" "$1" && cd "$top/crates/$1" && rt run 2>&1 && cp "out/$1" "$top/target/bin/" &&
            echo "rt: $1 proved")
        echo "rt ended with $?"
    } </dev/null | tee "$log" | awk -v name="$name" -v count="$((count))" '
        /^rt: [a-z_]+ proved/ && !told[$2]++ { printf "%s: proved %d of %d: %s\n", name, ++done, count, $2 > "/dev/stderr" }
        { ended = $0 }
        END { exit ended != "rt ended with 0" }' || {
        say "it could not be built; target/build-$1.log says why"
        return 1
    }
    touch "$top/target/bin/$1"
}

# Sees that the program is there. A script whose program is built in another way has a function of its own.
ready() { # PROGRAM
    is_built "$1" || build "$1"
}

# Runs the program on standard input, likewise.
run() { # PROGRAM
    "$top/target/bin/$1"
}

# Why a file cannot be read; nothing where it seems that it can.
unreadable() { # FILE
    if [ "$1" = - ] || [ "$1" = /dev/stdin ]; then
        return
    elif [ ! -e "$1" ]; then
        echo "no such file"
    elif [ -d "$1" ]; then
        echo "is a directory"
    elif [ ! -r "$1" ]; then
        echo "permission denied"
    fi
}

# The output of the program for what stands on standard input, in `out`; its sentence is on standard error already.
ask() { # PROGRAM FILE
    out=$(run "$1")
    ended=$?
    if [ "$ended" -gt 128 ]; then
        unanswered "$2: the program was ended by signal $((ended - 128)) (does the stack have 2 MB?)"
        return 1
    elif [ "$ended" -ne 0 ] || [ -z "$out" ]; then
        unanswered "$2: no answer"
        return 1
    fi
}

# What a refusal means, on standard error.
explain() { # PROGRAM INPUT ANSWER LINE
    if command -v python3 >/dev/null 2>&1; then
        python3 "$top/scripts/words.py" "$1" "$3" "$4" <"$2" >&2
    else
        awk -F '\t' -v answer="$3" '"refused-" $1 == answer { print answer ": " $5 }' "$top/docs/refusals.tsv" >&2
    fi
}

# Between which rules the test at every length cannot tell, on standard error. The finder's unknown has no entries.
doubts() { # PROGRAM INPUT
    if [ "$1" = calls ] && command -v python3 >/dev/null 2>&1; then
        printf '%s\n' "$out" | python3 "$top/scripts/doubts.py" "$2" >&2
    fi
}

# Puts FRONT and the input, as far as any program reads it, into a file of our own.
spool() { # FRONT FILE
    { printf '%s' "$1" && head -c 16385; } >"$lend/input" || {
        unanswered "$2: could not be read whole"
        return 1
    }
}

# The answer to what stands on standard input.
answer() { # PROGRAM FRONT FILE
    if [ -n "$2" ] || [ "$words" = 1 ]; then
        room || {
            unanswered "no folder for temporary files could be made"
            return 0
        }
        spool "$2" "$3" && ask "$1" "$3" <"$lend/input" || return 0
    else
        ask "$1" "$3" || return 0
    fi
    printf '%s\n' "$out" || {
        unanswered "standard output: could not be written"
        return 0
    }
    # the second line
    line=${out#*"
"}
    line=${line%%"
"*}
    case $line in
    refused-*)
        worse 1
        if [ "$words" = 1 ]; then explain "$1" "$lend/input" "${line% *}" "${line##* }"; fi
        ;;
    unknown*)
        if [ "$words" = 1 ]; then doubts "$1" "$lend/input"; fi
        ;;
    esac
}

# The answers for all files; `-` and /dev/stdin are standard input.
answers() { # PROGRAM FRONT FILE ..
    program=$1 front=$2
    shift 2
    [ $# -gt 0 ] || set -- -
    if [ -t 2 ]; then words=1; fi
    ready "$program" || exit 3
    several=$#
    for file in "$@"; do
        if [ "$several" -gt 1 ]; then printf '==> %s <==\n' "$file" >&2; fi
        why=$(unreadable "$file")
        if [ -n "$why" ]; then
            unanswered "$file: $why"
        elif [ "$file" = - ] || [ "$file" = /dev/stdin ]; then
            answer "$program" "$front" "standard input"
        else
            { answer "$program" "$front" "$file"; } <"$file" || unanswered "$file: could not be opened"
        fi
    done
}
