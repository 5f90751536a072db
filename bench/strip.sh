#!/usr/bin/env bash
# Strips the debug instructions of a module of nearly 4,194,304 bytes, the most that is read, and prints
# the processor seconds and the peak memory that this takes, beside those of `cp` on the same file and of
# `true`, which is what starting a program costs. It fails where the output is not the expected one.
#
# Needs python3. It is no part of the merge gate.

set -eu

. "$(dirname -- "$(readlink -f -- "${BASH_SOURCE[0]}")")/optimiser.sh"

python3 "$here/large_module.py" "$shader" "$work/in.spv" "$work/stripped.spv"
printf 'module: %d bytes, without debug instructions %d bytes\n' \
    "$(stat -c %s "$work/in.spv")" "$(stat -c %s "$work/stripped.spv")"

measure spirv-opt "$program" --strip-debug "$work/in.spv" -o "$work/out.spv"
cmp -- "$work/out.spv" "$work/stripped.spv"
measure cp cp -- "$work/in.spv" "$work/copy.spv"
measure true true
