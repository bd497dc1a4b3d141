#!/usr/bin/env bash
# Writes what tools/list says, with its exit status, in a folder where a stand-in for tools/prove proves nothing and
# installs a program that writes the answer at hand: each answer, with the trees mark and without; input that is wrong, of
# which it must not hear; and two runs at once.
# usage: tests/list.sh
cd "$(dirname "$0")/.." || exit 1
work=$(mktemp -d) || exit 1
trap 'rm -rf "$work"' EXIT
mkdir "$work/bin" "$work/tools" "$work/in" "$work/tmp"
cp tools/list tools/book tools/book.c "$work/tools"
printf '%s\n' '# the listing needs three' 'bits:' 'book: bits' 'listing: book bits io' 'other: bits' >"$work/crates.txt"
printf '#!/bin/sh\n' >"$work/bin/rt"
cat >"$work/tools/prove" <<'END'
#!/bin/sh
cd "$(dirname "$0")/.." || exit 1
echo "$*" >>"$WORK/called"
sleep "$(cat "$WORK/wait")"
echo 'rt: bits proved (unchanged since it was last proved)'
printf 'rt: %s\n' 'book proved (2 s)' 'listing proved (3 s)' 'ok, 3 crates proved'
mkdir -p target/bin
printf '#!/bin/sh\nod -An -tx1 >"$WORK/given"\ncat "$WORK/answer"\n' >target/bin/listing
chmod +x target/bin/listing
exit "$(cat "$WORK/proves")"
END
chmod +x "$work/bin/rt" "$work/tools/prove"
export WORK=$work PATH=$work/bin:$PATH TMPDIR=$work/tmp
echo 0 >"$work/wait"
echo 0 >"$work/proves"
cd "$work/in" || exit 1

# say ARGUMENT ..: the tool over standard input
say() {
    "$work/tools/list" "$@" 2>&1
    echo "status $?"
}
# answer LINE ..: what the program writes from now on
answer() { printf '%s\n' "$@" >"$work/answer"; }
called() { if [ -f "$work/called" ]; then wc -l <"$work/called"; else echo 0; fi; }

wrong_input() {
    say
    say a b
    say -x
    say nothing
    say .
    say no/thing.txt
    printf 'book\nkeys\n' >wrong.txt
    say wrong.txt
    say - <. | grep -v '^head:'
    echo "rt was called $(called) times"
}

# the first bytes of a book tell the program nothing here, and tools/list the mark
answers() {
    printf '\030' >marked
    printf '\367' >unmarked
    for line in 'findings 0' 'findings 2' 'refused 3 0' 'refused 10 0' 'not read' 'findings' ''; do
        answer "$line"
        for book in marked unmarked; do
            echo "$line, $book:"
            say "$book"
        done
    done | grep -v 'crate . of\|minutes'
    rm "$work/answer"
    say marked 2>&1 | tail -n 2
}

# the three ways to a book, with the bytes that the program was given, and what is said while rt proves
books() {
    answer 'findings 1' '50 1 2'
    printf 'book trees\n' >marked.txt
    rm -rf "$work/target/bin"
    say marked.txt
    cat "$work/given"
    printf '\030\001' | say -
    cat "$work/given"
    say -h | sed -n '1p; $p'
    (cd / && say "$work/in/marked" | tail -n 1)
    echo 1 >"$work/proves"
    say marked
    echo 0 >"$work/proves"
}

# two runs at once over two texts: the second waits for the first, and each judges its own
together() {
    local before
    before=$(called)
    echo 0.5 >"$work/wait"
    printf 'book\n' >unmarked.txt
    say marked.txt >first &
    while [ "$(called)" = "$before" ]; do sleep 0.05; done
    say unmarked.txt
    wait
    cat first
}

{ wrong_input && answers && books && together; } | sed "s|$work|FOLDER|g"
echo "$(find "$work/tmp" -mindepth 1 | wc -l) temporary files are left"
