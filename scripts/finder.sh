# The call `find` of bin/teplonga; sourced by it after scripts/run.sh. The finder is a program in
# plain Rust (rust/finder) that is linked with the proved library, so it is built in another way
# than the proved programs, and it takes options.

seconds=10
to=24
memory=512
solver=''

# A value that is not so written: a sentence and the usage.
bad_value() { # OPTION WHAT
    say "$1 takes $2"
    usage
}

# Is the word a number from LEAST to MOST?
is_number() { # WORD LEAST MOST
    case $1 in
    '' | *[!0-9]* | ??????*) return 1 ;;
    esac
    [ "$1" -ge "$2" ] && [ "$1" -le "$3" ]
}

is_seconds() { # WORD
    case $1 in
    '' | . | *[!0-9.]* | *.*.*) return 1 ;;
    esac
    whole=${1%%.*}
    is_number "${whole:-0}" 0 86400
}

# The options at the front; how many words they took.
find_options() {
    taken=0
    while [ $# -gt 0 ]; do
        case $1 in
        --seconds)
            is_seconds "${2-}" || bad_value "$1" "a number of seconds, at most 86400"
            seconds=$2
            ;;
        --to)
            is_number "${2-}" 1 64 || bad_value "$1" "a number of tokens, 1 to 64"
            to=$2
            ;;
        --memory)
            is_number "${2-}" 1 8192 || bad_value "$1" "a number of megabytes, 1 to 8192"
            memory=$2
            ;;
        --solver)
            [ -n "${2-}" ] || bad_value "$1" "the name of a program"
            solver=$2
            ;;
        -h | --help)
            printf '%s\n' "$help"
            exit 0
            ;;
        --)
            taken=$((taken + 1))
            return
            ;;
        -?*)
            say "find has no option $1"
            usage
            ;;
        *) return ;;
        esac
        taken=$((taken + 2))
        shift 2
    done
}

# Is the finder there, and no older than its sources and the library? Where it is installed its sources are not there.
is_finder_built() {
    [ -x "$top/target/bin/finder" ] || return 1
    [ -e "$top/crates.txt" ] || return 0
    "$top/bin/library" --made || return 1
    [ -z "$(cd "$top" && find rust target/lib -name target -prune -o \
        \( -name '*.rs' -o -name '*.toml' -o -name '*.a' \) -newer target/bin/finder -print)" ]
}

# Proves the library, where it is not there yet, and builds the finder.
build_finder() {
    for tool in rt cargo; do
        command -v "$tool" >/dev/null 2>&1 || {
            say "the finder is not built yet (or older than its sources), and the command" \
                "\`$tool\`, which it is built with, is not found: see README.md, \"Run\""
            return 1
        }
    done
    say "the finder is built first: some minutes where the library that it asks is not proved yet"
    mkdir -p "$top/target/bin" || return 1
    log=$top/target/build-finder.log
    (
        cd "$top" || exit
        bin/library || exit
        cargo build --release --manifest-path rust/finder/Cargo.toml \
            --target-dir target/cargo || exit
        cp target/cargo/release/finder target/bin/finder && touch target/bin/finder
    ) </dev/null >"$log" 2>&1 || {
        say "it could not be built; target/build-finder.log says why"
        return 1
    }
}

ready() {
    is_finder_built || build_finder
}

run() {
    "$top/target/bin/finder" --seconds "$seconds" --to "$to" --memory "$memory" \
        ${solver:+--solver "$solver"}
}
