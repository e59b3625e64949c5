#!/usr/bin/env bash
# A term can't be used after its arena's end. A small program that reads a term's size inside the arena's block compiles and
# runs; with the same line below the block the compiler must refuse it, and for that reason. Nothing is proved here.
set -u
cd "$(dirname "$0")/.." || exit 1
work="$(mktemp -d)"
trap 'rm -rf "$work"' EXIT

mkdir -p "$work/crates/misuse/src"
for crate in sp_base sp_term; do
    mkdir "$work/crates/$crate"
    for part in src specs proofs; do
        [ ! -d "crates/$crate/$part" ] || cp -R "crates/$crate/$part" "$work/crates/$crate/"
    done
    grep "^$crate:" crates.txt >> "$work/crates.txt"
done
echo "misuse: sp_base sp_term bumpalo" >> "$work/crates.txt"

# The program, with the line that reads the size inside the block or below it.
program() {
    local inside='' below=''
    if [ "$1" = inside ]; then inside='nodes = size(t);'; else below='nodes = size(t);'; fi
    cat << END
#![tactic(auto)]

use bumpalo::Bump;
use sp_base::Memory;
use sp_term::{Kind, Term, make, size};
use std::alloc::Global;

fn nodes_of(alloc: Global) -> Result<u64, Memory> {
    let t: &Term;
    let nodes: u64;
    {
        let arena = Bump::new(alloc);
        t = make(&arena, Kind::Truth(true))?;
        $inside
    }
    $below
    Ok(nodes)
}

fn main(rt: HostRuntime) -> Result<(), std::io::Error> {
    if let Ok(nodes) = nodes_of(rt.alloc()) {
        println!(rt; "{nodes} node")?;
    }
    Ok(())
}
END
}

run() {
    program "$1" > "$work/crates/misuse/src/main.rt"
    (cd "$work/crates/misuse" && rt try) > "$work/said" 2>&1
}

run inside
if ! grep -qx '1 node' "$work/said"; then
    echo "tools/arena.sh: a term read before its arena's end isn't right:" >&2
    cat "$work/said" >&2
    exit 1
fi
run below
if grep -qx '1 node' "$work/said" || ! grep -qF "\`arena\` does not live long enough" "$work/said"; then
    echo "tools/arena.sh: a term read after its arena's end isn't refused for that:" >&2
    cat "$work/said" >&2
    exit 1
fi
echo "A term that outlives its arena doesn't compile."
