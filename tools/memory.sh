#!/usr/bin/env bash
# Refuses each allocation of a run in turn: the program must answer that memory ran out, or the same as with ample memory.
# The runs are an accepted `verify`, `asm` of a routine with annotations, a loop and two names, and `run` of one instruction. A
# run ends where three numbers one after another leave it as it is, which no allocation has. Each turn builds the program anew,
# so it takes long. With words, only these runs: verify, asm, run; a number among them is where each begins.
set -u
cd "$(dirname "$0")/../crates/space8080" || exit 1
folder="$(mktemp -d)"
trap 'rm -rf "$folder"' EXIT
cat > "$folder/clear.asm" <<'SOURCE'
;# stack 2300H, 23FFH
;# bytes BUF, 2000H, 16
;# routine CLEAR
;# post for all I in 0..15: BUF[I] = 0
;# changes BUF, A, B, HL, FLAGS
CLEAR: LXI H,2000H
       MVI B,16
       XRA A
;# assert A = 0 and 1 <= B and B <= 16
;# assert HL = addr(BUF) + 16 - B
;# assert for all I in 0..15 - B: BUF[I] = 0
LOOP:  MOV M,A
       INX H
       DCR B
       JNZ LOOP
       RET
;# end
SOURCE
printf ':0100000027D8\n:00000001FF\n' > "$folder/daa.hex"

# sweep NAME WANTED WORD..: the run of these words, whose line with ample memory is WANTED
sweep() {
    local name="$1" wanted="$2" n said whole=0
    shift 2
    for ((n = first; whole < 3; n++)); do
        said="$(rt try --fail-alloc "$n" -- "$@" 2>&1)"
        case "$(sed -n 's/^checked: ended status=//p' <<< "$said")" in
            6) whole=0 ;;
            0)
                if ! grep -q -F -x -- "$wanted" <<< "$said"; then
                    echo "$name, allocation $n refused: done without its report"
                    exit 1
                fi
                whole=$((whole + 1))
                ;;
            *)
                echo "$name, allocation $n refused: another answer"
                echo "$said"
                exit 1
                ;;
        esac
    done
    echo "$name, allocations refused in turn: $first to $((n - 4))"
}

first=1
runs=()
for word in "$@"; do
    case "$word" in
        verify | asm | run) runs+=("$word") ;;
        *) first="$word" ;;
    esac
done
[ "${#runs[@]}" -gt 0 ] || runs=(verify asm run)
for each in "${runs[@]}"; do
    case "$each" in
        verify) sweep verify "$(cat stdout)" verify data/SRC data/SCRIPTS "$folder/IMG" ;;
        asm) sweep asm 'assembled bytes=13 names=2' asm "$folder/clear.asm" "$folder/IMG" ;;
        run)
            sweep run 'A=01 B=00 C=00 D=00 E=00 H=00 L=00 S=0 Z=0 AC=1 P=0 CY=1 SP=0000 PC=0001 steps=1 running' \
                run "$folder/daa.hex" --set A=9BH --steps 1
            ;;
    esac
done
