#!/usr/bin/env bash
# Makes the trees of modules whose functions have many blocks of one kind, each kind in a size and in the double and
# the fourfold of it, and prints the processor seconds and the peak memory that each takes, beside those of `true`,
# which is what starting a program costs, and what the program answers. All runs have the same small stack, so
# that none needs more of it for more blocks. It fails where a module is refused that is to be read, or read that is to
# be refused, and where the stack does not suffice.
#
# Needs python3. It is no part of the merge gate.

set -eu

here=$(dirname -- "$(readlink -f -- "${BASH_SOURCE[0]}")")
root=$(dirname -- "$here")
shader=$root/examples/doubles_a_buffer.spv
crate=$root/crates/function_trees
program=$crate/out/function_trees
stack=2048 # KiB

trees='chain copies selections cases cases_phi cases_of_one phis loops loops_in_place continue_chain continue_loops
    exits exits_phi nested innermost functions'
deep='deep_selections deep_switches deep_loops deep_continues'
refused='never_entered no_labels one_merge ring crossing falls all_fall bad_targets deep_targets'

work=$(mktemp -d)
trap 'rm -rf -- "$work"' EXIT

# Builds the program where it is missing or stale.
(cd -- "$crate" && rt run <"$shader" >"$work/log" 2>&1) || { cat -- "$work/log"; exit 1; }

# Runs a command on the module, and leaves its answer and its status.
measure() {
    local lines
    status=0
    lines=$(ulimit -s "$stack" && python3 -I -S "$here/measure.py" "$@" 2>&1) || status=$?
    figures=${lines##*$'\n'}
    answer=${lines%"$figures"}
}

sizes_of() {
    case $1 in
        cases* | *fall* | bad_targets | exits_phi) echo 4095 8190 16380 ;;
        phis) echo 125 250 500 ;;
        functions) echo 1000 2000 4000 ;;
        *) echo 25000 50000 100000 ;;
    esac
}

# Measures a kind in sizes, where this status is wanted.
measure_kind() {
    local kind=$1 wanted=$2 count
    shift 2
    for count; do
        python3 "$here/trees.py" "$shader" "$kind" "$count" "$work/in.spv"
        measure '' "$program" <"$work/in.spv"
        printf '%-20s %7d %s  %s\n' "$kind" "$count" "$figures" "${answer%$'\n'}"
        if [ "$status" != "$wanted" ]; then
            printf 'trees.sh: status %d in place of %d\n' "$status" "$wanted" >&2
            exit 1
        fi
    done
}

measure '' true
printf '%-28s %s\n' true "$figures"
for kind in $trees; do
    measure_kind "$kind" 0 $(sizes_of "$kind")
done
for kind in $deep; do
    measure_kind "$kind" 0 255
    measure_kind "$kind" 1 $(sizes_of "$kind")
done
for kind in $refused; do
    measure_kind "$kind" 1 $(sizes_of "$kind")
done
