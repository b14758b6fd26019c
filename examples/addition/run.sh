#!/bin/sh
# Stores the arrays `a` and `b` in the folder that is given, adds them, and prints the sum `y`.
. "$(dirname -- "$0")/../begin.sh"
load addition/a addition/b
./cubed "$folder" run --allowed-mem 1600 <examples/addition/expression.json &&
    ./cubed "$folder" print y
