#!/bin/bash
# Packs what is proved into one file, and puts what such a file has in place, so that another clone need not prove it.
#
#   tests/archive.sh pack [CRATE ..]    proves half_store, halfbrown, halfmap and these libraries, where something has changed,
#                                       writes out/halfbrown-VERSION-KIT.tar.gz, and prints its SHA-256 sum
#   tests/archive.sh unpack FILE SUM    puts the proved files of FILE in place; if FILE has another sum, another kit, or other
#                                       sources than this folder, refuses it and changes nothing
#
# FILE has the sources, out/rlib of each library and of those below it, halfmap with its stamp, RT_VERSION with the line of
# `rt version`, and SHA256SUMS with the sum of each file. Equal files make an equal archive.
set -euo pipefail
export LC_ALL=C
cd "$(dirname "$0")/.."
top=$PWD
version=$(rt version)
mkdir -p out
folder=$(mktemp -d "$top/out/archive.XXXXXX")
trap 'rm -rf "$folder"' EXIT
trap 'exit 1' HUP INT TERM
fails() { echo "$*" >&2; exit 1; }

pack() {
    local crates=(half_store halfbrown "$@") rlibs at it kit=${version#*kit-} name sums others
    for ((at = 0; at < ${#crates[@]}; at++)); do
        [ -e "crates/${crates[at]}/src/lib.rt" ] || fails "${crates[at]} is no library of this repository"
        for it in $(sed -n "s/^${crates[at]}://p" crates.txt); do
            [ ! -d "crates/$it" ] || [[ " ${crates[*]} " == *" $it "* ]] || crates+=("$it")
        done
    done
    name=halfbrown-$(sed -n '/^## /{s///p;q}' CHANGELOG.md)-${kit%% *}
    sums=$folder/$name/SHA256SUMS
    mkdir "$folder/$name"
    echo "$version" >"$folder/$name/RT_VERSION"
    (cd "$folder/$name" && sha256sum RT_VERSION) >"$sums"
    others=$(git ls-files --others -- crates/*/{src,specs,proofs})
    [ -z "$others" ] || fails "rt reads what git does not know:" $others
    # The sums of the sources are from before the proofs: where one changes meanwhile, the archive is refused.
    git ls-files -z >"$folder/sources"
    xargs -0 sha256sum <"$folder/sources" >>"$sums"
    tests/prove.sh half_store lib halfbrown lib halfmap run ${@/%/ lib}
    rlibs=("${crates[@]/#/crates/}")
    { find "${rlibs[@]/%//out/rlib}" -type f -print0 && printf 'crates/halfmap/out/%s\0' halfmap halfmap.stamp; } |
        sort -z >"$folder/proved"
    xargs -0 sha256sum <"$folder/proved" >>"$sums"
    tar -c --format=gnu --owner=0 --group=0 --numeric-owner --mtime=@0 --mode=u+rw,go=rX --no-recursion \
        --transform="s,^,$name/," -C "$folder/$name" RT_VERSION SHA256SUMS -C "$top" \
        --null -T "$folder/sources" -T "$folder/proved" | gzip -1n >"$folder/packed"
    mv "$folder/packed" "out/$name.tar.gz"
    sha256sum "out/$name.tar.gz"
}

unpack() {
    local file began sum inside known more it said=$folder/said
    file=$(realpath "$1")
    # What changes from now on is newer than the stamp of halfmap, whose time run.sh reads.
    began=$(date +@%s.%N)
    sum=$(sha256sum <"$file") sum=${sum%% *}
    [ "$sum" = "$2" ] || fails "$1 has the SHA-256 sum $sum, and not $2"
    # Into an empty folder, below which tar keeps each name.
    tar -xzf "$file" -m --no-same-owner -C "$folder" || fails "$1 is damaged, or has a name that leads out of it"
    inside=("$folder"/*)
    [ ${#inside[@]} -eq 1 ] && cd "${inside[0]}" &&
        ls SHA256SUMS RT_VERSION crates/half{_store,brown}/out/rlib/stamp crates/halfmap/out/halfmap{,.stamp} >/dev/null 2>&1 ||
        fails "$1 was not made by make archive"
    # Nothing but the files that are listed, and these plain: a link has another letter, or a number of links.
    diff <(find . ! -type d -printf '%y%n %P\n' | sort) <(sed 's/^.\{66\}/f1 /; $a f1 SHA256SUMS' SHA256SUMS | sort) >"$said" ||
        fails "$1 differs from its list of files:" $(sed -n 's/^[<>] [^ ]* //p' "$said" | sort -u)
    sha256sum --quiet --strict -c SHA256SUMS >"$said" 2>/dev/null ||
        fails "$1 has a file of another sum than in its list:" $(sed 's/: FAILED.*//' "$said")
    [ "$(cat RT_VERSION)" = "$version" ] || fails "$1 is of $(cat RT_VERSION), and here is $version"
    known=$(sed -n 's/^\(\w\+\):.*/\1/p' "$top/crates.txt" | paste -sd '|')
    grep -vxE ".{66}(RT_VERSION|crates/($known)/out/rlib/.*|crates/halfmap/out/halfmap(\.stamp)?)" SHA256SUMS |
        (cd "$top" && sha256sum --quiet -c >"$said" 2>/dev/null) ||
        fails "$1 has other sources than this folder:" $(sed 's/: FAILED.*//' "$said")
    more=$(for it in crates/*/out; do (cd "$top" && find "${it%out}"{src,specs,proofs} -type f 2>/dev/null) || :; done |
        sort | comm -23 - <(cut -c 67- SHA256SUMS | sort))
    [ -z "$more" ] || fails "$1 lacks sources of this folder:" $more
    for it in crates/*/out/rlib; do
        mkdir -p "$top/${it%/rlib}"
        [ ! -e "$top/$it" ] || mv -T "$top/$it" "$it.before"
        mv -T "$it" "$top/$it"
    done
    touch -d "$began" crates/halfmap/out/halfmap.stamp
    mkdir -p "$top/crates/halfmap/out"
    mv -f crates/halfmap/out/halfmap{,.stamp} "$top/crates/halfmap/out/"
}

if [ "${1-}" = pack ]; then
    pack "${@:2}"
else
    [ "${1-}" = unpack ] && [ -n "${2-}" ] && [ -n "${3-}" ] || fails "Write: make archive, or make unpack FILE=.. SUM=.."
    unpack "$2" "$3"
fi
