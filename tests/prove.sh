#!/bin/sh
# Proves crates, if something has changed, and says how far it is.
#
#   tests/prove.sh                     proves half_store, halfbrown and halfmap, and builds halfmap
#   tests/prove.sh CRATE COMMAND ..    rt's command `lib`, `check` or `run` for each crate
#
# JOBS says how many jobs a proof has, if not one for each processor, up to four.
set -u
cd "$(dirname "$0")/../crates" || exit 1
began=$(date +@%s.%N)
jobs=${JOBS:-$(nproc)}
[ "$jobs" -le 4 ] || jobs=4
log=$(mktemp) || exit 1
trap 'rm -f "$log"' EXIT
trap 'exit 1' HUP INT TERM

# prove CRATE COMMAND: what rt says is shown if it fails.
prove() {
    (cd "$1" && rt "$2" --jobs "$jobs" </dev/null 2>&1 || echo "status $?") | tee "$log" |
        sed -u -n "s/^so far: \([0-9]* of [0-9]* functions\).*/$1: \1/p; /^rt: waiting /p" >&2
    if tail -n 1 "$log" | grep -q '^status '; then
        cat "$log" >&2
        echo "$1 is not proved" >&2
        exit 1
    fi
    # If the program is already that of these sources, rt leaves its stamp, whose time run.sh reads.
    [ "$2" != run ] || touch -cd "$began" "$1/out/$1.stamp"
}

if [ ! -e halfbrown/out/rlib ]; then
    echo "half_store, halfbrown and halfmap are proved in 5 to 9 minutes on 4 processors (in 15 on one), others in some more." >&2
fi
[ $# -gt 0 ] || set -- half_store lib halfbrown lib halfmap run
while [ $# -gt 0 ]; do prove "$1" "$2"; shift 2; done
