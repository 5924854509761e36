# What the measurements need: the program, a folder that goes away at the end, and the time of a pass. It is read by
# the scripts beside it, whose first word is the program. Times are those of the processor, as taken.py counts them.
program=$1
taken=$(dirname "$0")/taken.py
folder=$(mktemp -d)
trap 'rm -rf "$folder"' EXIT

# The nanoseconds of one pass over a source: the least of five means or more, since other work on the machine only adds.
time_of() { # source step times [means]
    whole=$("$taken" "${4-5}" 0 "$1" /dev/null "$program" "$2" "$3")
    echo $((whole / $3))
}
