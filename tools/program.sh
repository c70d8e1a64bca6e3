# shellcheck shell=bash disable=SC2154
# Runs a program of this repository. bin/terms, bin/explore, bin/checker and bin/solver source this file, which isn't a command by
# itself.
#
# Before it is sourced these are set:
#   name     the command in bin/, which begins each message
#   crate    the program's crate
#   library  the crate that the program uses
#   takes_words  set where the program takes words of its own
#   called_by    the option by which it takes its input's name, if it has one

top=$(cd "$(dirname "${BASH_SOURCE[0]}")/.." && pwd)
program=$top/crates/$crate/out/$crate

say() {
    echo "$name: $*" >&2
}

# The time in seconds, as minutes and seconds.
time_of() {
    printf '%d:%02d' "$(($1 / 60))" "$(($1 % 60))"
}

# The crates below the program, lowest first, as crates.txt has them.
crates_below() {
    local line below
    line=$(grep "^$library:" "$top/crates.txt")
    while IFS=: read -r below _; do
        [[ " ${line/:/} " == *" $below "* ]] && echo "$below"
    done < "$top/crates.txt"
    return 0
}

# Whether the program is there, and no source of it is newer.
is_built() {
    local folders=("$top/crates/$crate") below newer
    [ -x "$program" ] || return 1
    for below in $(crates_below); do folders+=("$top/crates/$below"); done
    newer=$(find "$top/crates.txt" "${folders[@]}" -name out -prune -o \
        -type f \( -name '*.rt' -o -name '*.antt' -o -name crates.txt \) -newer "$program" -print -quit)
    [ -z "$newer" ]
}

# Does the work of `rt` in a crate, and tells of each fiftieth function that is checked. What was said is kept in the log.
work() {
    local proved=$1 word=$2 log=$3 line count=0
    (cd "$top/crates/$proved" && rt "$word" < /dev/null 2>&1) | while IFS= read -r line; do
        echo "$line" >> "$log"
        case $line in
        "checked "*" of "*)
            count=$((count + 1))
            if [ $((count % 50)) = 0 ]; then say "    $proved: function ${line##*, }"; fi
            ;;
        esac
    done
}

# Proves the crates and builds the program.
build() {
    local crates proved number=0 start
    log=$(mktemp)
    began=$(mktemp)
    trap 'rm -f "$log" "$began"' EXIT
    mapfile -t crates < <(crates_below; echo "$crate")
    say "the program isn't built for these sources: ${#crates[@]} crates are proved first"
    say "from nothing that takes an hour or more of processor time (CONTRIBUTING.md, Times), and less where little changed"
    say "bin/$name --unproved takes a minute or two, without proofs"
    for proved in "${crates[@]}"; do
        number=$((number + 1))
        start=$SECONDS
        : > "$log"
        say "$number of ${#crates[@]}: $proved .."
        if ! work "$proved" "$([ "$proved" = "$crate" ] && echo run || echo lib)" "$log"; then
            cat "$log" >&2
            say "$proved is not proved"
            exit 1
        fi
        say "$number of ${#crates[@]}: $proved is proved, in $(time_of $((SECONDS - start)))"
    done
    touch -r "$began" "$program"
    rm -f "$log" "$began"
    trap - EXIT
}

# Prints what the first lines of the command's file say.
help() {
    awk 'NR > 1 && !/^#/ { exit } NR > 1 { sub(/^# ?/, ""); print }' "$top/bin/$name"
}

# Builds the program if need be, and runs it on standard input. The arguments are the command's. Further words than --unproved are
# the program's, if it takes any.
run_program() {
    local proves=yes
    # Help needs no program.
    if [ "${1-}" = --help ]; then
        help
        exit
    fi
    if ! command -v rt > /dev/null; then
        say "the command rt isn't on the path: this needs the Rattle kit"
        exit 2
    fi
    if [ "${1-}" = --unproved ]; then
        proves=
        shift
    fi
    if [ "$#" != 0 ] && [ -z "${takes_words-}" ]; then
        echo "usage: bin/$name [--unproved] < FILE" >&2
        exit 2
    fi
    if [ -z "$proves" ]; then
        say "nothing is proved: rt try builds the program without proofs, in a minute or two"
        # `rt try` gives the program no file, so a file that is the last word becomes its input.
        if [ "$#" != 0 ] && [ -f "${!#}" ]; then
            exec < "${!#}"
            if [ -n "${called_by-}" ]; then
                set -- "$called_by" "${!#}" "${@:1:$#-1}"
            else
                set -- "${@:1:$#-1}"
            fi
        fi
        cd "$top/crates/$crate" || exit 2
        exec rt try -- "$@"
    fi
    is_built || build
    exec "$program" "$@"
}
