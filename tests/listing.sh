#!/usr/bin/env bash
# Writes what the proved program `listing` says at the limits that document 01 gives it, of input that comes in parts, and of input that can't be read.
# The books have holes between their first and last bucket, which give kind 50 each: runs of size 0 split them, and so do buckets in use.
# Lines that are many are held to those that `holes` writes, and told by the first two, the last and their number.
cd "$(dirname "$0")/.." || exit 1
listing=target/bin/listing
made=target/tests/listing_edges
mkdir -p "$made"

# between RUNS VALUE: from bucket 1 on, so many runs of size 0 a bucket apart, then a key that no rule reads, with a value of so many bytes
between() {
    echo "book first_bucket=1 buckets=$(($1 + 2))"
    seq 2 $(($1 + 1)) | sed 's/.*/key btree=freespace type=set offset=&/'
    echo "key btree=255 type=255 offset=0 value=$(head -c "$2" /dev/zero | od -An -v -tx1 | tr -d ' \n')"
}

# used BUCKETS: from bucket 1 on, every second bucket in use, so many in all
used() {
    echo "book first_bucket=1 buckets=$((2 * $1 + 2))"
    seq 2 2 $((2 * $1)) | sed 's/.*/alloc bucket=& type=1/'
}

# holes COUNT STEP: what is said of so many holes of one bucket, of which the first is bucket 1
holes() {
    echo "findings $1"
    seq 1 "$2" $(($1 * $2)) | awk '{ print 50, $1, $1 + 1 }'
}

# say WHAT [COUNT STEP]: what the program writes of standard input, and whether these are the lines of so many holes
say() {
    "$listing" >"$made/said"
    echo "$1: status $?"
    if [ $# -eq 1 ]; then
        cat "$made/said"
    else
        head -n 2 "$made/said" && tail -n 1 "$made/said"
        holes "$2" "$3" | cmp - "$made/said" && wc -l <"$made/said" | sed 's/ *$/ lines/'
    fi
}

# book NAME: packs a text, and writes its size
book() {
    tools/book pack >"$made/$1" && wc -c <"$made/$1" | sed 's/ *$/ bytes/'
}

lengths() {
    between 2338 12 | book longest
    say 'as a file' 2339 1 <"$made/longest"
    head -c 65537 "$made/longest" | say 'through a pipe' 2339 1
    between 2338 13 | book longer
    say 'as a file' <"$made/longer"
    head -c 65538 "$made/longer" | say 'through a pipe'
    head -c 1048577 /dev/zero | say '1,048,577 zeros'
    say 'zeros without an end' </dev/zero
}

findings() {
    used 3854 | book full
    say '3,855 findings' 3855 2 <"$made/full"
    used 3855 | book fuller
    say '3,856 findings' <"$made/fuller"
}

parts() {
    { head -c 33 crates/listing/stdin && sleep 0.1 && tail -c +34 crates/listing/stdin; } | say 'in two parts'
    say 'no bytes' </dev/null
}

# errors: the last is behind a whole book, in a pipe that is open for writing too and does not wait
errors() {
    say 'standard input closed' <&-
    say 'a directory' </
    rm -f "$made/pipe"
    mkfifo "$made/pipe"
    exec 3<>"$made/pipe"
    cat crates/listing/stdin >&3
    dd iflag=nonblock count=0 status=none <&3
    say 'an error behind a book' <&3
    exec 3>&-
}

lengths
findings
parts
errors
