#!/usr/bin/env bash
# Measures what one message costs a side that has taken few offers, and one that has taken many.
#
# For TAKEN = 600 and TAKEN = 60000 the program `pace` is run with HEARD = 0 and with HEARD = 2000000; the difference
# of the two times, by HEARD, is the time for one message, without what it takes to make the offers. Each is measured
# three times, in turn, so that a busy machine slows both alike. Printed are the medians, and by how much a message is
# dearer with 60000 offers taken than with 600.
#
# Run it from the repository's root: tools/pace.sh [HEARD]
set -euo pipefail

heard=${1:-2000000}
few=600
many=60000
rounds=3

(cd crates/pace && rt run -- 1 0) >/dev/null
pace=crates/pace/out/pace

# The nanoseconds that a run takes; what it prints must be right.
time_of() {
    local taken=$1 messages=$2 start end said
    start=$(date +%s%N)
    said=$("$pace" "$taken" "$messages")
    end=$(date +%s%N)
    if [ "$said" != "taken $taken, heard $messages, refused $messages" ]; then
        echo "pace: unexpected: $said" >&2
        exit 1
    fi
    echo $((end - start))
}

# The nanoseconds for one message with so many offers taken.
per_message() {
    local with without
    without=$(time_of "$1" 0)
    with=$(time_of "$1" "$heard")
    echo $(((with - without) / heard))
}

median() {
    printf '%s\n' "$@" | sort -n | sed -n "$((($# + 1) / 2))p"
}

at_few=()
at_many=()
for ((round = 0; round < rounds; round++)); do
    at_few+=("$(per_message "$few")")
    at_many+=("$(per_message "$many")")
done

low=$(median "${at_few[@]}")
high=$(median "${at_many[@]}")
echo "$few taken: ${at_few[*]} ns a message, median $low"
echo "$many taken: ${at_many[*]} ns a message, median $high"
awk -v low="$low" -v high="$high" 'BEGIN { printf "ratio %.2f\n", high / low }'
