#!/bin/sh
# The check of a block has no division in its machine code, and no multiplication that stands for one. Compilers divide
# by a constant by a multiplication of 64 bits; each of ours is a word by its weight, of 16 bits or of 32.
# Proves the crate `block` in a folder of its own, below a crate that exports the check by itself, and looks at what
# that compiles to: `sh tests/check_code.sh show` prints it. Wants the library too (`sh tests/staticlib.sh`), in which
# the same code stands inside the calls.
set -e
cd "$(dirname "$0")/.."
library=$PWD/target/staticlib/libhost.a
work=$(mktemp -d)
trap 'rm -rf "$work"' EXIT
mkdir -p "$work/crates/alone/src"
mkdir "$work/crates/block"
cp -r crates/block/src crates/block/specs crates/block/proofs "$work/crates/block"
printf 'block:\nalone staticlib: block\n' > "$work/crates.txt"
cat > "$work/crates/alone/src/lib.rt" <<'RATTLE'
#![tactic(auto)]

ghost use Rattle.std.specs.Prelude.{◌≡◌, take};
ghost use Rattle.block.specs.Sums.{block_good, sealed};

#[unsafe(no_mangle)]
pub extern "C" fn good(s: &[u8; 512]) -> bool
    ensures { result ≡ block_good s.now }
{
    block::good(s)
}

#[unsafe(no_mangle)]
pub extern "C" fn seal(s: &mut [u8; 512])
    ensures { s.new ≡ sealed (take 508 s.old) }
{
    block::seal(s)
}
RATTLE
(cd "$work/crates/alone" && rt lib > "$work/said" 2>&1 || { cat "$work/said"; exit 1; })
alone=$work/crates/alone/out/libalone.a
[ "${1:-}" != show ] || objdump -d --no-show-raw-insn "$alone"

# FUNCTION MNEMONIC OPERANDS, a line for each instruction.
instructions() {
    objdump -d --no-show-raw-insn "$1" | sed 's/#.*//' |
        awk '/>:$/ { name = substr($2, 2, length($2) - 3) } /^ .*:\t/ { print name, $2, $3 }'
}
instructions "$alone" | awk '
    { seen[$1]++ }
    $2 ~ /div/ { print "a division: " $0; bad = 1 }
    $2 ~ /mul|madd/ { times[$1]++ }
    $2 ~ /^mul/ || $2 ~ /^imul/ && $3 !~ /^%(e..|r[0-9]+d),%(e..|r[0-9]+d)$/ { print "may stand for a division: " $0; bad = 1 }
    END {
        if (bad || !seen["good"] || !seen["seal"]) exit 1
        for (name in seen) print name ": " seen[name] " instructions, " times[name] " multiplications of words by weights, no division"
    }'
# 80008001 in hex, the least number over 2^47 / 65535, is what a number of 32 bits is multiplied by in place of that division.
instructions "$library" | awk '
    { seen[$1]++ }
    $1 ~ /^pot_(read|write)$/ && $2 ~ /div/ || /0x(8000800)+1/ { print "a division: " $0; bad = 1 }
    END { exit bad || !seen["pot_read"] || !seen["pot_write"] }'
