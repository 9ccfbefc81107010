#!/bin/bash
# Tests of the tools: each deck's output is compared with the one beside it. Status 0: all are the same.
#
# ends/NAME.mps gives ends/NAME.out. dialects/NAME.mps, with the options in dialects/NAME.words where there are some,
# gives dialects/NAME.out, or nothing where the deck is refused, and what dialects/NAME.notes says.
cd "$(dirname "$0")" || exit 2
work=$(mktemp -d) || exit 2
trap 'rm -rf "$work"' EXIT
failed=0
tried=0

same() {
    if ! diff -u "$1" "$2"; then
        echo "not the same: $1"
        failed=$((failed + 1))
    fi
}

for deck in ends/*.mps; do
    tried=$((tried + 1))
    awk -f ../ends.awk "$deck" > "$work/out"
    echo "status $?" >> "$work/out"
    same "${deck%.mps}.out" "$work/out"
done

for deck in dialects/*.mps; do
    tried=$((tried + 1))
    name=${deck%.mps}
    words=
    [ -f "$name.words" ] && words=$(cat "$name.words")
    rm -f "$work/deck"
    # shellcheck disable=SC2086
    python3 ../dialects.py "$deck" "$work/deck" $words 2> "$work/notes"
    echo "status $?" >> "$work/notes"
    same "$name.notes" "$work/notes"
    if [ -f "$name.out" ]; then
        same "$name.out" "$work/deck"
    elif [ -f "$work/deck" ]; then
        echo "not refused: $deck"
        failed=$((failed + 1))
    fi
done

echo "$tried decks, $failed not the same"
[ "$failed" -eq 0 ]
