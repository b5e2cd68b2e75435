#!/bin/sh
# Runs the worked examples of a group of substreams (tests.rt.in) over emulated cards, on a copy of the crates. The
# gate proves the tests that it runs; these are run without a proof, by `rt try`. The last line says how many passed.
set -eu
here=$(cd "$(dirname "$0")" && pwd)
top=$(dirname "$(dirname "$here")")
work=$(mktemp -d)
trap 'rm -rf "$work"' EXIT
git init -q "$work"
cp "$top/crates.txt" "$top/HANDLES" "$work"
mkdir "$work/crates"
(cd "$top/crates" && tar cf - --exclude=out .) | (cd "$work/crates" && tar xf -)
cp "$here/tests.rt.in" "$work/crates/pcm_group/src/tests.rt"
printf '#[cfg(test)]\nmod tests;\n' >>"$work/crates/pcm_group/src/lib.rt"
cd "$work/crates/pcm_group"
rt try --test
