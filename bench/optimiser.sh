# What the scripts that measure the optimiser have in common: a folder to work in, the shader, the program, which is built
# where it is missing or stale, and what measures a command. The shader without debug instructions is $work/shader.spv.

here=$(dirname -- "$(readlink -f -- "${BASH_SOURCE[0]}")")
root=$(dirname -- "$here")
shader=$root/examples/doubles_a_buffer.spv
program=$root/crates/spirv_opt/out/spirv_opt

work=$(mktemp -d)
trap 'rm -rf -- "$work"' EXIT

"$root/spirv-opt" --strip-debug "$shader" -o "$work/shader.spv"

measure() {
    python3 -I -S "$here/measure.py" "$@"
}
