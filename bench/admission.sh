#!/usr/bin/env bash
# Strips the debug instructions of modules of about one, two and four million bytes with much of one kind, and of
# generated shaders, and prints the processor seconds and the peak memory that each takes, beside those of `true`,
# which is what starting a program costs; and beside the generated shaders those of spirv-opt of SPIRV-Tools, where that
# is on the path. It fails where a module is refused.
#
# Needs python3. It is no part of the merge gate.

set -eu

. "$(dirname -- "$(readlink -f -- "${BASH_SOURCE[0]}")")/optimiser.sh"

# Measures the module that was made.
strip() {
    measure "$1, $(stat -c %s "$work/in.spv") bytes" "$program" --strip-debug "$work/in.spv" -o "$work/out.spv"
}

# Measures functions with so many blocks, or so many functions.
blocks() {
    local kind=$1 count
    shift
    for count; do
        python3 "$here/trees.py" "$shader" "$kind" "$count" "$work/in.spv"
        strip "$kind, $count"
    done
}

measure true true
for kind in additions uses; do
    for count in 52000 104000 208000; do
        python3 "$here/admission.py" "$shader" "$kind" "$count" "$work/in.spv"
        strip "$kind, $count"
    done
done
for count in 500 700 1000; do
    python3 "$here/admission.py" "$shader" globals "$count" "$work/in.spv"
    strip "globals, $count"
done
blocks functions 1800 3600 7200
blocks chain 25000 50000 100000
blocks selections 20000 40000 80000
blocks loops 10000 20000 40000
for count in 1000 2000 4000; do
    python3 "$here/generated.py" "$shader" "$count" "$work/in.spv"
    strip "generated, $count"
    if command -v spirv-opt >/dev/null; then
        measure "SPIRV-Tools' spirv-opt" spirv-opt --strip-debug "$work/in.spv" -o "$work/other.spv"
    fi
done
