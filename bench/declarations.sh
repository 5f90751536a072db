#!/usr/bin/env bash
# Strips the debug instructions of modules with 50,000 and 100,000 constants, array types, decorations or
# members, on ids that follow each other and on ids that are 32 apart, and prints the processor seconds and
# the peak memory that each takes, beside those of `true`, which is what starting a program costs. It fails
# where a module is refused, or where stripping changes it.
#
# Needs python3. It is no part of the merge gate.

set -eu

. "$(dirname -- "$(readlink -f -- "${BASH_SOURCE[0]}")")/optimiser.sh"

measure true true
for kind in constants arrays decorations members; do
    for spacing in 1 32; do
        for count in 50000 100000; do
            python3 "$here/declarations.py" "$work/shader.spv" "$kind" "$count" "$spacing" "$work/in.spv"
            printf '%-12s %7d, ids %2d apart: ' "$kind" "$count" "$spacing"
            measure '' "$program" --strip-debug "$work/in.spv" -o "$work/out.spv"
            cmp -- "$work/in.spv" "$work/out.spv"
        done
    done
done
