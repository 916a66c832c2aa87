#!/bin/sh
# Copies a module into a crate of yours, with all that its proof needs. The crate's name stands there for half_uses.
#
#   crates/half_uses/copy.sh MODULE CRATE      CRATE is a folder, such as crates/mine
#
# It prints the files, and what crates.txt lacks. It replaces no file.
set -eu
export LC_ALL=C
fail() { echo "copy.sh: $1" >&2; exit 1; }
[ $# = 2 ] || fail "write copy.sh MODULE CRATE"
module=$1 crate=$(realpath "$2")
name=$(basename "$crate")
cd "$(dirname "$(realpath "$0")")"
[ -f "src/$module.rt" ] || fail "there is no module $module"
root=$crate/src/lib.rt
[ -f "$root" ] || root=$crate/src/main.rt
# Below the last module, or else below the attributes of the crate.
line=$(grep -nE '^((pub )?mod \w+;|#!\[tactic)' "$root" | tail -n 1)
[ -n "$line" ] || fail "$root has no #![tactic(auto)]"

# The source, the proofs of its functions, and what these name of specs and proofs, and so on.
files="src/$module.rt $(find "proofs/$module" -type f 2>&- || :)" more=$files
while [ -n "$more" ]; do
    named=$(sed -nE 's/.*\bhalf_uses\.(specs|proofs)\.([A-Z]\w*).*/\1\/\2.antt/p' $more | sort -u)
    more=$(for it in $named; do [ -n "${files##*$it*}" ] && echo "$it"; done || :)
    files="$files $more"
done
for it in $files; do
    [ ! -e "$crate/$it" ] || fail "$crate/$it is there"
done

for it in $files; do
    mkdir -p "$crate/${it%/*}"
    sed "s/\bhalf_uses\b/$name/g" "$it" >"$crate/$it"
    case $it in
        src/* | */*/*) ;;
        *) echo "pub mod $(basename "$it" .antt)" >>"$crate/${it%/*}/Lib.antt" ;;
    esac
done
case $line in *mod*) gap= ;; *) gap='\n' ;; esac
sed -i "${line%%:*}s/\$/$gap\npub mod $module;/" "$root"
echo $(printf '%s\n' $files | sed "s:^\(proofs/$module\)/.*:\1:" | sort -ru)
grep -q "^$name:.*\bhalfbrown\b" "$crate/../../crates.txt" || echo "crates.txt has to have: $name: halfbrown"
