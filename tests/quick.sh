#!/bin/bash
# quick.sh [CRATE]: builds the program, or that of another crate (as ug_cases), without its proofs, with checks of sums and bounds in
# their place, and keeps it at out/CRATE-unproved. It takes some minutes. `rt try` lays the whole program down as one module, which it compiles with further checks, runs and removes: the
# module is taken as that begins, and is compiled to be kept.
cd "$(dirname "${BASH_SOURCE[0]}")/.." || exit 1
crate=${1:-ug_main}
kit=$(dirname "$(rt doc)")
work=$(mktemp -d)
trap 'rm -rf "$work"' EXIT

# compiler: the process that compiles in $work, once there is one.
compiler() {
    local process
    for process in /proc/[0-9]*; do
        case $(readlink "$process/cwd") in
            "$work"/*) ! grep -qs -e -fsanitize=address "$process/cmdline" || { echo "$process" && return; } ;;
        esac
    done
    return 1
}

(cd "crates/$crate" && TMPDIR=$work exec rt try -- groups nothing < /dev/null) > "$work/said" 2>&1 &
tried=$!
until process=$(compiler); do
    kill -0 "$tried" 2> "$work/ended" || { cat "$work/said"; exit 1; }
    sleep 0.1
done
mapfile -d '' words < "$process/cmdline"
cp "$process/cwd/module.bc" "$work" || exit 1
kill "$tried"
wait "$tried"
for i in "${!words[@]}"; do
    case ${words[i]} in
        -O?) words[i]=-O2 ;;
        -fsanitize=address) unset "words[i]" ;;
        *.o | *.o.tmp) words[i]=module.o ;;
    esac
done
(cd "$work" && "${words[@]}") || exit 1
"$kit/bin/rattle-link" --target x86_64-unknown-linux-gnu --toolchain "$kit/toolchain" -o "$work/program" "$work/module.o" "$kit/c/libos_c.a" "$kit/c/liblibc_c.a" > "$work/said" || exit 1
mkdir -p out
mv "$work/program" "out/$crate-unproved"
echo "out/$crate-unproved is built, and not proved"
