#!/bin/sh
# Compares what the documents and the examples show with what the program writes.
#
#     docs/outputs.sh PROGRAM
#
# PROGRAM is the built program, as crates/umpire_main/out/umpire_main. Nothing of the repository is
# changed: all runs are made in a folder of their own, on a copy of examples/ and tools/. Standard
# error is not compared, and no times are.
#
# In README.md and docs/*.md a comment says how the block behind it is compared. A block is indented
# by four blanks, and ends at the first line that is not.
#
#     <!-- file: NAME -->            the block is written to the file NAME
#     <!-- session -->               a line '$ COMMAND' is run, with the lines '> ..' behind it;
#                                    the lines behind these are what it writes
#     <!-- output: COMMAND -->       the block is what COMMAND writes
#     <!-- holds: COMMAND :: LINE -->  COMMAND writes the line LINE, among others; no block
#
# The commands are those of a shell in which `umpire` is PROGRAM. The blocks of a document are run
# one after the other in one folder.
#
# Of each deck in examples/ and examples/other-programs/ the report of `solve` is compared with the
# file .report beside it, the tree with the file .tree, if there is one, and the answer and the
# counts with its row in examples/INDEX.md; and `check` must accept the tree.

if [ $# -ne 1 ] || [ ! -x "$1" ] || [ -d "$1" ]; then
    echo "usage: docs/outputs.sh PROGRAM" >&2
    exit 2
fi
program=$(cd "$(dirname "$1")" && pwd)/$(basename "$1")
top=$(cd "$(dirname "$0")/.." && pwd)
work=$(mktemp -d) || exit 2
trap 'rm -rf "$work"' EXIT
mkdir "$work/bin"
printf '#!/bin/sh\nexec "%s" "$@"\n' "$program" >"$work/bin/umpire"
chmod +x "$work/bin/umpire"
PATH=$work/bin:$PATH
export PATH
compared=0
different=0

# differ PLACE SHOWN WRITTEN: compares two files.
differ() {
    compared=$((compared + 1))
    if ! cmp -s "$2" "$3"; then
        different=$((different + 1))
        echo "$1: shown (-) and written (+) differ"
        diff -u "$2" "$3" | tail -n +3
    fi
}

# fail PLACE WORDS
fail() {
    different=$((different + 1))
    echo "$1: $2"
}

# Cuts a document into files LINE.KIND (what the comment says) and LINE.block.
cut_document() {
    awk -v into="$2" '
        function at() { return into "/" sprintf("%06d", line) }
        /^<!-- (file: |session|output: |holds: )/ {
            line = NR
            kind = $2
            sub(/:$/, "", kind)
            said = $0
            sub(/^<!-- [a-z]+:? */, "", said)
            sub(/ *-->$/, "", said)
            print said > (at() "." kind)
            close(at() "." kind)
            wanted = kind != "holds"
            inside = 0
            next
        }
        wanted && /^    / {
            inside = 1
            print substr($0, 5) > (at() ".block")
            next
        }
        wanted && inside { wanted = 0; close(at() ".block") }
        wanted && NF { print FILENAME ":" line ": no block behind this comment"; wanted = 0 }
    ' "$1"
}

# Makes of a session a script that writes the session.
script_of() {
    awk '
        function quoted(text) { gsub(/\047/, "\047\\\047\047", text); return "\047" text "\047" }
        function run() {
            if (command == "") return
            print "printf \"%s\\n\" " quoted(shown)
            print "(exit $last)"
            print command
            print "last=$?"
            command = ""
        }
        BEGIN { print "last=0" }
        /^\$ / { run(); shown = $0; command = substr($0, 3); next }
        /^> / { shown = shown "\n" $0; command = command "\n" substr($0, 3); next }
        END { run() }
    ' "$1"
}

# index_row DECK REPORT TREE: what the row of a deck in examples/INDEX.md says between what it shows
# and its time: answer, rows, columns, nodes, pivots.
index_row() {
    if [ -f "$3" ]; then
        awk 'NR == FNR { if ($1 == "DECK") size = $(NF - 3) " | " $(NF - 2); next }
            FNR == 1 { answer = $0 }
            $1 == "objective" && $2 != "none" { answer = answer " " $2 }
            $1 == "nodes" { nodes = $2 }
            $1 == "pivots" { pivots = $2 }
            END { print " " answer " | " size " | " nodes " | " pivots " " }' "$3" "$2"
    else
        echo " \`$(cat "$2")\` | - | - | - | - "
    fi
}

fresh() {
    rm -rf "$work/cut" "$work/run"
    mkdir "$work/cut" "$work/run"
    cp -R "$top/examples" "$work/run/examples"
    if [ -d "$top/tools" ]; then cp -R "$top/tools" "$work/run/tools"; fi
}

cd "$top" || exit 2
for document in README.md docs/*.md examples/*.md; do
    [ -f "$document" ] || continue
    fresh
    cut_document "$document" "$work/cut" >"$work/words"
    if [ -s "$work/words" ]; then
        cat "$work/words"
        different=$((different + 1))
    fi
    for part in "$work"/cut/*.file "$work"/cut/*.session "$work"/cut/*.output "$work"/cut/*.holds; do
        [ -f "$part" ] && echo "$part"
    done | sort >"$work/parts"
    while read -r part; do
        number=$(basename "${part%.*}")
        place=$document:$(echo "$number" | sed 's/^0*//')
        block=$work/cut/$number.block
        case $part in
        *.file)
            cp "$block" "$work/run/$(cat "$part")"
            ;;
        *.session)
            script_of "$block" >"$work/script"
            (cd "$work/run" && sh "$work/script") >"$work/written" 2>/dev/null </dev/null
            differ "$place" "$block" "$work/written"
            ;;
        *.output)
            (cd "$work/run" && sh -c "$(cat "$part")") >"$work/written" 2>/dev/null </dev/null
            differ "$place" "$block" "$work/written"
            ;;
        *.holds)
            compared=$((compared + 1))
            line=$(sed 's/^.* :: //' "$part")
            command=$(sed 's/ :: .*$//' "$part")
            (cd "$work/run" && sh -c "$command") >"$work/written" 2>/dev/null </dev/null
            if ! grep -qxF -e "$line" "$work/written"; then
                fail "$place" "'$command' writes no line '$line'"
                head -6 "$work/written"
            elif ! grep -v '^<!--' "$document" | tr '\n' ' ' | tr -s ' ' | grep -qF -e "$line"; then
                fail "$place" "'$line' does not stand in the text"
            fi
            ;;
        esac
    done <"$work/parts"
done

fresh
cd "$work/run" || exit 2
for deck in examples/*.mps examples/other-programs/*.mps; do
    name=${deck%.mps}
    rm -f tree
    umpire solve "$deck" --tree tree >"$work/written" 2>/dev/null
    if [ -f "$name.report" ]; then
        differ "$name.report" "$name.report" "$work/written"
    else
        fail "$deck" "no report stands beside it"
    fi
    if [ -f "$name.tree" ]; then differ "$name.tree" "$name.tree" tree; fi
    if [ -f examples/INDEX.md ]; then
        index_row "$deck" "$work/written" tree >"$work/row"
        grep -F "| \`${deck#examples/}\` |" examples/INDEX.md | cut -d '|' -f 4-8 >"$work/said"
        differ "examples/INDEX.md, $deck" "$work/said" "$work/row"
    fi
    if [ -f tree ]; then
        echo yes >"$work/yes"
        umpire check "$deck" tree >"$work/written" 2>/dev/null
        differ "check of $deck" "$work/yes" "$work/written"
    fi
done
for shown in examples/*.report examples/*.tree examples/other-programs/*.report; do
    if [ ! -f "${shown%.*}.mps" ]; then fail "$shown" "no deck stands beside it"; fi
done

echo "$compared outputs compared, $different differ"
[ "$different" -eq 0 ]
