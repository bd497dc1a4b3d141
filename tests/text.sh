#!/usr/bin/env bash
# Writes what tools/book, or another build of tools/book.c, says of wrong input, with its exit status: the texts of
# tests/text.txt, each ended by a line ---, then texts that are too long, texts with bytes that are not printable, bytes
# that are not a whole book, and files that are not there; last, how the marks of the header are packed and written.
# usage: tests/text.sh [PROGRAM]
cd "$(dirname "$0")/.." || exit 1
book=${1:-tools/book}

# say COMMAND ..: the tool over standard input
say() {
    local said status
    said=$("$book" "$@" 2>&1)
    status=$?
    echo "$said; status $status"
}

# wrong_texts: each of the texts of tests/text.txt
wrong_texts() {
    local text='' line
    while IFS= read -r line; do
        if [ "$line" = --- ]; then
            printf '%s' "$text" | say pack
            text=
        else
            text+=$line$'\n'
        fi
    done <tests/text.txt
}

# long_texts: a line, a byte or a word more than fits; before each of the first two, the longest that fits
long_texts() {
    local key='key btree=0 type=0 offset=0'
    { echo book && seq 65535 | sed 's/.*/subvolume id=& snapshot=1/'; } | "$book" pack | wc -c
    { echo book && seq 65536 | sed 's/.*/subvolume id=& snapshot=1/'; } | say pack
    { echo book && yes "$key" | head -n 37448; } | "$book" pack | wc -c
    { echo book && yes "$key" | head -n 37449; } | say pack
    { echo book && echo "$key words=0$(printf ',0%.0s' {1..510}) value=000000"; } | "$book" pack | wc -c
    { echo book && echo "$key value=00 words=0$(printf ',0%.0s' {1..511})"; } | say pack
    printf 'book\nparent \000id=1\n' | say pack
    printf '' | say pack
}

# strange_texts: bytes that are not printable are shown in hexadecimal, also in names of files, and long words are cut
strange_texts() {
    printf 'book\nkey\033[2J id=1\n' | say pack
    printf 'book\nparent id=1\007 parent=2\n' | say pack
    printf 'book\nparent \377\\n\177=1\n' | say pack
    printf 'book\nkey btree=0 type=0 offset=0 value=\033]\n' | say pack
    { printf 'book\n' && printf 'x%.0s' {1..60}; } | say pack
    { printf 'book\n' && printf '\001%.0s' {1..61}; } | say pack
    say pack "$(printf 'no\033[2Jthing')"
}

# header COUNT_AT: a header whose count at that byte is 1
header() {
    printf '\020' && head -c "$1" /dev/zero && printf '\001' && head -c $((30 - $1)) /dev/zero
}

wrong_books() {
    printf '' | say text
    head -c 31 crates/listing/stdin | say text
    head -c 59 crates/listing/stdin | say text
    { cat crates/listing/stdin && echo; } | say text
    for count_at in 24 26 28 30; do
        { header $count_at && printf '1234567'; } | say text
    done
    { header 6 && printf '\001\001\000\040' && head -c 24 /dev/zero; } | say text
    head -c 1048577 /dev/zero | say text
    echo 00zz | say roundtrip
    echo 000 | say roundtrip
    printf '00\000\n' | say roundtrip
    say text tests
    say text target/tests/nothing
    say text <tests
    say
}

# marks: the first two bytes that fields of the book's line are packed into, and the line that is written of them; a
# drawn book with a parents table; and each value of the two bytes, there and back
marks() {
    local fields
    for fields in '' trees drawn 'trees drawn' 'drawn trees' 'spare=512 drawn' 'trees spare=1023' 'drawn layout=0'; do
        echo "book $fields" | "$book" pack | od -An -v -tx1 -N2 | tr -d ' '
        echo "book $fields" | "$book" pack | say text
    done
    printf 'book drawn\nparent id=7 parent=8\n' | "$book" pack | say text
    seq 0 65535 | awk '{ printf "%04x%060d\n", $1, 0 }' | say roundtrip
}

wrong_texts
long_texts
strange_texts
wrong_books
marks
