#!/usr/bin/env bash
# Tries the transcripts that documents show. A transcript is a fenced block whose first line begins with `$ `: such lines are
# commands, and below each stands what it prints. The commands of one document run one after another in a folder of their
# own, which has the program and a copy of the examples. With no words the documents are the manual with its chapters and the read-me.
# SPACE8080 may name another program.
set -u
cd "$(dirname "$0")/.." || exit 1
program="$(realpath "${SPACE8080:-./space8080}")"
work="$(mktemp -d)"
trap 'rm -rf "$work"' EXIT
failed=0

# Writes each transcript of a document to a file of its own, which is called by the line that the transcript begins on.
transcripts_of() {
    awk -v folder="$2" '
        /^```/ { fenced = !fenced; file = ""; fresh = fenced; next }
        fenced && fresh { fresh = 0; if (/^\$ /) file = sprintf("%s/%06d", folder, NR) }
        file != "" { print > file }
    ' "$1"
}

# What a transcript prints, with its commands.
replay() {
    grep '^\$ ' "$1" | while IFS= read -r line; do
        echo "$line"
        (cd "$2" && bash -c "${line#\$ }" < /dev/null)
    done
}

try_document() {
    local name="$1" place="$work/$1" transcript
    mkdir -p "$place/transcripts" "$place/folder"
    cp -r examples "$place/folder/examples"
    printf '#!/bin/sh\nexec "%s" "$@"\n' "$program" > "$place/folder/space8080"
    chmod +x "$place/folder/space8080"
    transcripts_of "$name" "$place/transcripts"
    for transcript in "$place"/transcripts/*; do
        [ -e "$transcript" ] || { echo "$name: shows no transcript"; failed=1; break; }
        replay "$transcript" "$place/folder" > "$work/text"
        if ! diff "$transcript" "$work/text" > "$work/difference"; then
            echo "$name, line $((10#$(basename "$transcript"))): prints another text"
            cat "$work/difference"
            failed=1
        fi
    done
    echo "$name: $(find "$place/transcripts" -type f | wc -l) transcripts tried"
}

[ "$#" -gt 0 ] || set -- docs/MANUAL.md docs/manual/*.md README.md
for document in "$@"; do
    try_document "$document"
done
exit "$failed"
