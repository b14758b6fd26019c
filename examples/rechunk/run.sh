#!/bin/sh
# Stores the arrays `m` (in columns) and `n` (in rows) in the folder that is given; shows the plan of a change of chunks in as little
# memory as it takes, in some more, and in ample memory; runs and checks it; adds the arrays, whose chunks don't fit each other; and
# stores `m` under another name. What it prints stands in `output`.
. "$(dirname -- "$0")/../begin.sh"
load rechunk/m rechunk/n
for memory in 24 64 1000; do
    ./cubed "$folder" plan --allowed-mem $memory <examples/rechunk/rows.json || exit
done
./cubed "$folder" run --allowed-mem 64 <examples/rechunk/rows.json &&
    ./cubed "$folder" check <examples/rechunk/rows.json &&
    ./cubed "$folder" print by_rows || exit
for pair in sum:total copy:copied; do
    ./cubed "$folder" plan <"examples/rechunk/${pair%:*}.json" && show rechunk "$pair" || exit
done
