# What the measurements in shell share: each of them reads it first, and it measures nothing itself. With --help it prints the
# head of the script that reads it. $top is the repository then, and $work a folder that goes away with the script.
head_of_script() {
    sed -n '2,${/^#/!q;s/^# \{0,1\}//p}' "$0"
}

case ${1:-} in
-h | --help)
    head_of_script
    exit 0
    ;;
esac

top=$(cd "$(dirname "$0")/../.." && pwd)
work=$(mktemp -d)
trap 'rm -rf "$work"' EXIT
trap 'exit 130' INT
trap 'exit 143' TERM

# counts WORD..: ends the script where one of these isn't a number above 0.
counts() {
    for word; do
        case $word in
        '' | 0* | *[!0-9]*)
            echo "$0: \"$word\" is no number above 0" >&2
            head_of_script >&2
            exit 2
            ;;
        esac
    done
}

# at_most N WORD..: ends the script where there are more than N words.
at_most() {
    [ $(($# - 1)) -le "$1" ] || {
        echo "$0: more words than it knows" >&2
        head_of_script >&2
        exit 2
    }
}

# need TOOL..: ends the script where one of these isn't on the PATH.
need() {
    for tool; do
        command -v "$tool" >/dev/null || {
            echo "$0: $tool is not on the PATH" >&2
            exit 1
        }
    done
}

# build_program CRATE: proves and builds the crate's program from the sources as they are. Where that fails it says what rt said.
build_program() {
    need rt
    (cd "$top/crates/$1" && rt run >"$work/log" 2>&1 </dev/null) || {
        cat "$work/log" >&2
        exit 1
    }
}

# build CRATE FILE: the crate's program, $proved, and the yardstick in plain Rust that has this file of bench/, $plain.
build() {
    need rustc cc
    build_program "$1"
    proved=$top/crates/$1/out/$1
    plain=$work/plain
    rustc --edition 2021 -C opt-level=2 -o "$plain" "$top/bench/$2"
}

# median FILE: the middle one of its lines, by the number with which each begins.
median() {
    sort -n "$1" | sed -n "$((($(wc -l <"$1") + 1) / 2))p"
}

# by_turns WORD..: runs both programs $runs times with these words, by turns. The medians of their nanoseconds are $a, of the
# proved one, and $b.
by_turns() {
    : >"$work/proved.ns"
    : >"$work/plain.ns"
    for _ in $(seq "$runs"); do
        "$proved" "$@" >>"$work/proved.ns"
        "$plain" "$@" >>"$work/plain.ns"
    done
    a=$(median "$work/proved.ns")
    b=$(median "$work/plain.ns")
}
