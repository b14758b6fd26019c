#!/bin/sh
# Stores the arrays `t` and `o` in the folder that is given, computes one expression of each group of views, and prints the results.
. "$(dirname -- "$0")/../begin.sh"
load elementwise/t elementwise/o
show views made:grid slice:last_first order:turned joined:longer triangle:lower wider:rows
