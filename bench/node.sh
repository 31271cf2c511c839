#!/usr/bin/env bash
# What a cluster costs while it is up: f = 1, three matchmakers, a grid of two by two, two replicas; each client has one put
# outstanding. For 1, 4, 16 and 64 clients, batches of 1 and 8, and all roles in one process or in five (the clients in one of
# them), a line says: answers a second from the first one on, slots and syncs a command, the median of the times from one answer
# of a client to its next and what 99 of 100 stay below (as a script reads them, so nothing else should run), processor time a
# command, how many clients got no answer, and for how long one was without. Before these: how much of a processor each of four
# processes takes that nobody asks anything. Beside them, where `etcd` is installed (Debian's etcd-server): what three of its
# members do for as many clients. Last, whether 100 starts of all roles in one folder are each answered.
#
# Use: [TIME=SECONDS] [FOLDER=PATH] [PROGRAM=PATH] bench/node.sh [--bars] [WORD..]
#
# With --bars, anywhere, only what a bar is set for is measured, five times in turn, and a line for each bar says whether it is met
# (bench/bars.py); etcd must be there. It takes less than five minutes. The words, as `--tend 1024`, are passed to each node. Each
# line takes TIME, 3 seconds where it isn't given. Journals lie in FOLDER, so its disk is measured; /dev/shm has none. Without
# PROGRAM the program must have been built, by `rt run` in crates/compax or by `rt ci`'s checks there.
set -euo pipefail

here=$(cd "$(dirname "$0")" && pwd)
program=${PROGRAM:-$(cd "$here/../crates/compax" && pwd)/out/compax}
where=(--seconds "${TIME:-3}" --folder "${FOLDER:-${TMPDIR:-/tmp}}")
words=() bars=
for word in "$@"; do
    if [[ $word == --bars ]]; then bars=yes; else words+=("$word"); fi
done
measure() { "$here/load.py" "${where[@]}" "$@"; }

if [[ $bars ]]; then exec "$here/bars.py" "${where[@]}" "$program" "${words[@]}"; fi
measure idle "$program" "${words[@]}"
for clients in 1 4 16 64; do
    for batch in 1 8; do
        for layout in one five; do
            measure compax "$program" $layout "$clients" "$batch" "${words[@]}"
        done
    done
    if command -v etcd > /dev/null; then measure etcd "$clients"; fi
done
measure starts "$program" "${words[@]}"
