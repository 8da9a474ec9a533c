#!/bin/sh
# Writes a catalogue by M shards at once on this machine: examples/shards/parallel.sh OUT M N [options]
#
# It calls GNU parallel, or xargs if that is not there. If a call is stopped, the next one with the same
# words resumes the shards.
set -eu
here=$(dirname "$0") out=$1 shards=$2
shift 2
if parallel --version 2>/dev/null | grep -q '^GNU parallel'; then
    seq "$shards" | parallel --will-cite --quote --jobs "$shards" "$here/part" "$out" {} "$shards" "$@"
else
    seq "$shards" | xargs -P "$shards" -I '{}' "$here/part" "$out" '{}' "$shards" "$@"
fi
exec "$here/join" "$out" "$shards"
