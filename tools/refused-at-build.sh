#!/usr/bin/env bash
# Misuses that are refused when a program is built.
#
# Each misuse/*.misuse is a program. Its first line names the crates that it reaches, and one line is
# marked '// refused: ERROR'. Without that line the program must build and run; with it the compiler
# must refuse it, with that error, at that line and nowhere else. Only sources are read, so nothing
# has to be proved first. Ends with status 1 where something is not as it must be.
set -u
top=$(cd "$(dirname "$0")/.." && pwd -P)
work=$(mktemp -d) || exit 1
trap 'rm -rf "$work"' EXIT
program=$work/crates/misuse/src/main.rt
mkdir -p "$(dirname "$program")"
for crate in "$top"/crates/*/; do
    name=$(basename "$crate")
    mkdir -p "$work/crates/$name"
    for part in src specs proofs; do
        [ ! -d "$crate$part" ] || cp -R "$crate$part" "$work/crates/$name/$part" || exit 1
    done
done

# Builds and runs the program, which proves nothing; what is said of it goes into the log.
build() { (cd "$work/crates/misuse" && rt try) >"$work/log" 2>&1; }

# One misuse; prints what is wrong with it, if anything.
try_one() { # FILE
    local crates line want errors
    crates=$(sed -n '1s,^// crates: ,,p' "$1")
    line=$(grep -n '// refused: ' "$1" | cut -d: -f1)
    want=$(sed -n 's,.*// refused: ,,p' "$1")
    [[ $line =~ ^[0-9]+$ ]] || { echo "it has not just one marked line"; return; }
    { cat "$top/crates.txt"; echo "misuse: $crates"; } >"$work/crates.txt"
    # the marked line is emptied, so that the others keep their numbers
    sed "${line}s/.*//" "$1" >"$program"
    build || { echo "without its marked line it does not build and run"; cat "$work/log"; return; }
    cp "$1" "$program"
    ! build || { echo "with its marked line it builds"; return; }
    errors=$(grep -o '^[^ ]*: error[^:]*' "$work/log" | sort -u)
    [ "$(sed 's/:[0-9]*: error/: error/' <<<"$errors")" = "src/main.rt:$line: error[$want]" ] || { echo "with its marked line, line $line, the compiler says: ${errors:-nothing}"; cat "$work/log"; }
}

status=0
for file in "$top"/misuse/*.misuse; do
    name=$(basename "$file" .misuse)
    wrong=$(try_one "$file")
    if [ -z "$wrong" ]; then
        echo "misuse $name: built without its marked line, refused with it"
    else
        printf 'misuse %s: NOT AS IT MUST BE: %s\n' "$name" "$wrong"
        status=1
    fi
done
exit $status
