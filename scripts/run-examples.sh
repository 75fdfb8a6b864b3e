#!/usr/bin/env bash
# Compares what the program and the outside tools print on the examples with the stored outputs, byte by byte.
# Beside NAME.toml: NAME.log is the output of `script`, NAME.check that of `check`; in refused/, NAME.line is that of
# `check`. NAME.explain, NAME.counts, NAME.scheduled,
# NAME.board-map, NAME.map.svg, NAME.run.svg and, in refused/, NAME.lint are those of the tools; NAME.map and NAME.who come
# from NAME.check alone. NAME.slots, NAME.told (explain), NAME.who-after, NAME.map-after and NAME.map-after.svg are those at
# the line of the log that stands in NAME.line-number; the address of NAME.who and NAME.who-after stands in NAME.address.
# What `main` answers to words that are no command, and with its output closed, is compared with what is due, and the counts
# of a made input with 09-made.tally.
# It runs the proved build where there is one, else an unproved build that it makes once for each command. Then the tools
# that run the program themselves are passed over, since each call would make a build of its own.
# Prints 'N of N as stored', and ends with 1 where something differs.
set -u
top=$(cd "$(dirname "$0")/.." && pwd) || exit 1
cd "$top" || exit 1
proved=$top/crates/uvisor/out/uvisor
same=0
all=0
work=$(mktemp -d) || exit 1
trap 'rm -rf "$work"' EXIT

# key INPUT: the input's path as one word
key() {
    echo "${1//\//+}"
}

# run_proved COMMAND INPUT..: leaves the output and the status of each input in $work/COMMAND
run_proved() {
    local command=$1 input name
    shift
    for input in "$@"; do
        name=$work/$command/$(key "$input")
        "$proved" "$command" <"$input" >"$name" 2>/dev/null
        echo $? >"$name.status"
    done
}

# run_unproved COMMAND INPUT..: the same by one unproved build, which writes `== KEY` before each output
run_unproved() {
    local command=$1 input name status
    shift
    mkdir "$work/$command-inputs"
    for input in "$@"; do
        cp "$input" "$work/$command-inputs/$(key "$input")"
    done
    (cd crates/uvisor && rt try --cases "$work/$command-inputs" -- "$command") >"$work/told" 2>"$work/said"
    awk -v folder="$work/$command" '/^== / { name = folder "/" substr($0, 4); printf "" >name; next } { print >name }' "$work/told"
    sed -n 's/^case=\(.*\) run=ended status=\([0-9]*\) .*/\1 \2/p' "$work/said" |
        while read -r name status; do echo "$status" >"$work/$command/$name.status"; done
}

# run COMMAND INPUT..: by the build that is there
run() {
    mkdir "$work/$1"
    if [ -x "$proved" ]; then run_proved "$@"; else run_unproved "$@"; fi
}

# told STORED STATUS COMMAND INPUT: compares what `run` left with the stored output and the wanted status
told() {
    local stored=$1 wanted=$2 output
    output=$work/$3/$(key "$4")
    all=$((all + 1))
    if [ "$(cat "$output.status" 2>/dev/null)" != "$wanted" ]; then
        echo "$stored: the status of $3 is not $wanted"
    elif ! cmp -s "$output" "$stored"; then
        echo "$stored: the output of $3 differs"
        diff "$stored" "$output" | head -n 5
    else
        same=$((same + 1))
    fi
}

# main_answers NAME STATUS TEXT: counts an answer of `main`, which stands in $work/main with its status
main_answers() {
    all=$((all + 1))
    if [ "$(cat "$work/main.status")" != "$2" ]; then
        echo "main, $1: the status is not $2"
    elif ! printf '%s' "$3" | cmp -s - "$work/main"; then
        echo "main, $1: the output differs"
    else
        same=$((same + 1))
    fi
}

# words NAME STATUS TEXT WORD..: asks `main` with these words and an empty input
words() {
    local name=$1 status=$2 text=$3
    shift 3
    scripts/uvisor "$@" </dev/null >"$work/main" 2>/dev/null
    echo $? >"$work/main.status"
    main_answers "$name" "$status" "$text"
}

# closed NAME STATUS WORD..: asks the proved build with its output closed
closed() {
    local name=$1 status=$2
    shift 2
    "$proved" "$@" <examples/01-one-box.toml >&- 2>/dev/null
    echo $? >"$work/main.status"
    : >"$work/main"
    main_answers "$name" "$status" ""
}

# tool STORED COMMAND..: compares what an outside tool prints, where its output is stored; standard input goes to it
tool() {
    local stored=$1
    shift
    [ -f "$stored" ] || return 0
    all=$((all + 1))
    if "$@" 2>/dev/null | cmp -s - "$stored"; then
        same=$((same + 1))
    else
        echo "$stored: the output of $1 differs"
    fi
}

# tools NAME INPUT: compares what the tools print that run the program themselves
tools() {
    local name=$1 input=$2 line
    [ -x "$proved" ] || { passed=$((passed + 1)); return 0; }
    line=$(cat "$name.line-number" 2>/dev/null)
    tool "$name.slots" scripts/slots-at "$input" "$name.log" "$line"
    tool "$name.told" scripts/explain "$input" "$name.log" "$line"
    tool "$name.who-after" scripts/who-holds "$(cat "$name.address" 2>/dev/null)" "$input" --log "$name.log" --line "$line"
    tool "$name.map-after" scripts/memory-map "$input" --log "$name.log" --line "$line"
    tool "$name.map-after.svg" scripts/memory-map "$input" --svg --log "$name.log" --line "$line"
    tool "$name.explain" scripts/explain "$input" "$name.log"
    tool "$name.board-map" scripts/memory-map "$input"
    tool "$name.map.svg" scripts/memory-map "$input" --svg
    tool "$name.run.svg" scripts/timeline "$name.log" "$input" --svg
    tool "$name.scheduled" scripts/schedule "$input" --until-ended
    tool "$name.lint" scripts/lint "$input"
}

passed=0
echo "run-examples: comparing the stored outputs, which takes some seconds" >&2
[ -x "$proved" ] || echo "run-examples: this is an unproved build ('rt run' in crates/uvisor makes the proved one)" >&2
inputs=(examples/*.toml examples/faults/*.toml examples/statuses/*.toml)
refused=(examples/refused/*.toml)
run script "${inputs[@]}" "${refused[@]}"
run check "${inputs[@]}" "${refused[@]}"
for input in "${inputs[@]}"; do
    name=${input%.toml}
    [ -f "$name.log" ] && told "$name.log" 0 script "$input"
    [ -f "$name.check" ] && told "$name.check" 0 check "$input"
    [ -f "$name.map" ] && tool "$name.map" scripts/memory-map <"$name.check"
    [ -f "$name.who" ] && tool "$name.who" scripts/who-holds "$(cat "$name.address")" <"$name.check"
    tool "$name.counts" scripts/counts "$name.log"
    tools "$name" "$input"
done
for input in "${refused[@]}"; do
    name=${input%.toml}
    [ -f "$name.line" ] && told "$name.line" 1 check "$input"
    tools "$name" "$input"
done
[ "$passed" -eq 0 ] || echo "run-examples: the tools that run the program were passed over on $passed inputs" >&2
usage='usage: uvisor script | threads | check | make N | tally N
'
words "no word" 2 "$usage"
words "a wrong word" 2 "$usage" scripts
words "a number with a leading zero" 2 "$usage" make 007
if [ -x "$proved" ]; then
    words "the counts of a made input" 0 "$(cat examples/09-made.tally)
" tally 1
    words "a word that is not UTF-8" 2 "$usage" $'check\xff'
    closed "a closed output of script" 4 script
    closed "a closed output of check" 4 check
    closed "a closed output of the usage line" 4
else
    echo "run-examples: 'rt try' passes no word that is not UTF-8 and no closed output: these are left out" >&2
fi
echo "$same of $all as stored"
[ "$same" -eq "$all" ]
