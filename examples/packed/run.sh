#!/bin/sh
# Stores the array `p` of packed numbers in the folder that is given, and prints means, least numbers and counts that leave out what is missing.
. "$(dirname -- "$0")/../begin.sh"
load packed/p
show packed mean:mean least:least above:warm_days
