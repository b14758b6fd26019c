#!/bin/sh
# Stores the arrays `t` and `o` in the folder that is given, computes one expression of each group of functions, and prints the results.
. "$(dirname -- "$0")/../begin.sh"
load elementwise/t elementwise/o
show elementwise arithmetic:sums bits:gray comparison:mild where:chosen conversion:bytes bounds:bounded
