#!/bin/sh
# Stores the arrays `t` and `o` in the folder that is given, computes one expression of each group of reductions, and prints the results.
. "$(dirname -- "$0")/../begin.sh"
load elementwise/t elementwise/o
show reductions totals:totals least:least some:some_large place:place product:product running:running grouped:grouped least_grouped:least_grouped
