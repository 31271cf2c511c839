#!/usr/bin/env bash
# What a session read costs beside a quorum read: f = 1, three matchmakers, a grid of two by two, two replicas, all roles in five
# processes and the clients, 16 unless told, in one of them; each client has one question outstanding. Five times in turn a line for
# quorum reads and one for sessions says: answers a second from the first one on, the median of the times from one answer of a client to
# its next and what 99 of 100 stay below, processor time an answer, how many clients got no answer, and for how long one was without.
#
# Use: [TIME=SECONDS] [CLIENTS=N] [FOLDER=PATH] [PROGRAM=PATH] bench/sessions.sh [WORD..]
#
# The words, as `--tend 1024`, are passed to each node. Each line takes TIME, 3 seconds where it isn't given, or ends sooner when all
# 60,000 questions are answered; FOLDER has the journals. Without PROGRAM the program must have been built, by `rt run` in crates/compax or by `rt ci`'s checks there.
set -euo pipefail

here=$(cd "$(dirname "$0")" && pwd)
program=${PROGRAM:-$(cd "$here/../crates/compax" && pwd)/out/compax}
for _ in 1 2 3 4 5; do
    for asks in reads sessions; do
        "$here/load.py" --seconds "${TIME:-3}" --folder "${FOLDER:-${TMPDIR:-/tmp}}" --asks $asks \
            compax "$program" five "${CLIENTS:-16}" 1 "$@"
    done
done
