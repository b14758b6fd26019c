# Read by the examples: goes to the top of the repository, with the whole path of the folder that is given as `folder`.
case ${1-} in
-h | --help)
    echo "usage: $0 DIR"
    sed -n '2,/^[^#]/s/^# //p' "$0"
    exit 0
    ;;
esac
if [ $# -ne 1 ]; then
    echo "usage: $0 DIR" >&2
    exit 1
fi
mkdir -p -- "$1" && folder=$(CDPATH='' cd -- "$1" && pwd) || exit 1
cd -- "$(dirname -- "$0")/../.." || exit 1

# Stores the arrays of these files.
load() {
    for file; do
        ./cubed "$folder" load <"examples/$file.json" || exit
    done
}

# Computes the expressions of a folder of examples, each given as FILE:RESULT, and prints their results.
show() {
    from=examples/$1
    shift
    for pair; do
        ./cubed "$folder" run <"$from/${pair%:*}.json" && ./cubed "$folder" print "${pair#*:}" || exit
    done
}
