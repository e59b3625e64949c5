#!/usr/bin/env bash
# Tries the examples: verifies each that has NAME.scripts, assembles each that has NAME.asm.out, checks each that has
# NAME.check.out, runs each that has NAME.run, tries each source and image of examples/refused, and checks each source of
# examples/sound and examples/unsound. Images and printed texts must be those that stand beside the example.
# Then it tries the statuses that files and a sink with faults give, with what the wrapper says of them, and the transcripts
# that the documents show. What differs is named. SPACE8080 may name another program.
set -u
cd "$(dirname "$0")/.." || exit 1
export SPACE8080="${SPACE8080:-./space8080}"
work="$(mktemp -d)"
trap 'rm -rf "$work"' EXIT
image="$work/image"
text="$work/text"
failed=0
tried=0

complain() {
    echo "$1: $2"
    failed=1
}

# A file must be the one that stands beside the example.
compare() {
    diff "$2" "$3" > "$work/difference" || { complain "$1" "another text than $2"; cat "$work/difference"; }
}

verify_example() {
    tried=$((tried + 1))
    rm -f "$image"
    if "$SPACE8080" verify "$1.asm" "$1.scripts" "$image" > "$text"; then
        compare "$1" "$1.hex" "$image"
    else
        complain "$1" "not accepted"
        cat "$text"
    fi
}

assemble_example() {
    tried=$((tried + 1))
    rm -f "$image"
    "$SPACE8080" asm "$1.asm" "$image" > "$text" || complain "$1" "asm ends with $?"
    compare "$1" "$1.asm.out" "$text"
    compare "$1" "$1.hex" "$image"
}

# Checks the source that the second word names; the text must be that in the file of the first.
check_example() {
    tried=$((tried + 1))
    "$SPACE8080" check "$2" > "$text" || complain "$2" "check ends with $?"
    compare "$2" "$1" "$text"
}

# Each line of NAME.run has the option words of one run.
run_example() {
    local words
    tried=$((tried + 1))
    : > "$text"
    while IFS=' ' read -ra words; do
        "$SPACE8080" run "$1.hex" "${words[@]}" >> "$text" < /dev/null || complain "$1" "run ${words[*]} ends with $?"
    done < "$1.run"
    compare "$1" "$1.run.out" "$text"
}

# The words after the first must be refused with the text in the file that the first names, and no image be made.
must_refuse() {
    local wanted="$1" status
    shift
    tried=$((tried + 1))
    rm -f "$image"
    "$SPACE8080" "$@" > "$text" 2> "$work/said"
    status=$?
    [ "$status" -eq 1 ] || complain "$2" "$1 ends with $status"
    [ ! -e "$image" ] || complain "$2" "refused, and an image was made"
    compare "$2" "$wanted" "$text"
}

# The same, with the text itself first.
must_say() {
    echo "$1" > "$work/wanted"
    shift
    must_refuse "$work/wanted" "$@"
}

for folder in examples/*/; do
    name="$folder$(basename "$folder")"
    case "$folder" in examples/refused/ | examples/sound/ | examples/unsound/) continue ;; esac
    before="$tried"
    [ ! -e "$name.scripts" ] || verify_example "$name"
    [ ! -e "$name.asm.out" ] || assemble_example "$name"
    [ ! -e "$name.check.out" ] || check_example "$name.check.out" "$name.asm"
    [ ! -e "$name.run" ] || run_example "$name"
    [ "$tried" -gt "$before" ] || complain "$name" "nothing to try"
done

for source in examples/refused/*.asm; do
    must_refuse "${source%.asm}.out" asm "$source" "$image"
done
for source in examples/sound/*.asm; do
    check_example "${source%.asm}.out" "$source"
done
for source in examples/unsound/*.asm; do
    must_refuse "${source%.asm}.out" check "$source"
done
for hex in examples/refused/*.hex; do
    must_refuse "${hex%.hex}.out" run "$hex"
done

large="$work/large"
head -c 1048577 /dev/zero > "$large"
must_say "refused Missing source" asm "$work/none" "$image"
must_say "refused Missing image" run "$work/none"
must_say "refused TooLarge source" asm "$large" "$image"
must_say "refused TooLarge image" run "$large"

# The words after the first two end with the status that the first names, put nothing, and what is said of it on standard error
# has the text of the second.
must_end() {
    local wanted="$1" said="$2" status
    shift 2
    tried=$((tried + 1))
    "$SPACE8080" "$@" > "$text" 2> "$work/said"
    status=$?
    [ "$status" -eq "$wanted" ] || complain "$*" "ends with $status, not $wanted"
    [ ! -s "$text" ] || complain "$*" "put a text"
    grep -q -F -- "$said" "$work/said" || complain "$*" "says another thing: $(cat "$work/said")"
}

mkdir "$work/folder"
must_end 3 "could not be read: $work/folder" asm "$work/folder" "$image"
must_end 3 "could not be read: $work/folder" verify examples/five/five.asm "$work/folder" "$image"
must_end 3 "could not be read: $work/folder" run "$work/folder"
must_end 4 "could not be written, or not whole: $work/none/image" asm examples/hello/hello.asm "$work/none/image"
tried=$((tried + 1))
"$SPACE8080" run examples/hello/hello.hex > /dev/full 2> "$work/said"
[ "$?" -eq 5 ] || complain "run" "a full sink doesn't end with 5"
grep -q "could not be printed" "$work/said" || complain "run" "says another thing of a full sink"

echo "examples tried: $tried"
tools/manual.sh || failed=1
exit "$failed"
