#!/usr/bin/env bash
# What a reader has to believe: for each crate its files of definitions that public contracts rest on, with their lines. It prints
# the table that stands in docs/GUARANTEES.md.
#
#   docs/believed.sh            prints it
#   docs/believed.sh --check    fails where the document has another one
#   docs/believed.sh --theorem NAME
#                               prints what one command, or one definition, makes a reader believe
set -u

cd "$(dirname "$0")/.." || exit 1

table() {
    echo '| Crate | Files of `specs/`, with their lines |'
    echo '|---|---|'
    for crate in $(sed -n 's/^\([a-z_]*\)[ :].*/\1/p' crates.txt | LC_ALL=C sort); do
        files=
        for file in crates/"$crate"/specs/*.antt; do
            name=$(basename "$file" .antt)
            case $name in Lib | Inner | '*') continue ;; esac
            files="$files${files:+, }$name $(wc -l <"$file")"
        done
        [ -z "$files" ] || echo "| \`$crate\` | $files |"
    done
}

if [ "${1:-}" = --theorem ]; then
    exec docs/reading.py "${2:?}"
fi
if [ "${1:-}" != --check ]; then
    table
    exit
fi
if ! diff <(table) <(sed -n '/^| Crate | Files of `specs\/`/,/^$/p' docs/GUARANTEES.md | sed '/^$/d'); then
    echo "docs/GUARANTEES.md has another table of what is to be believed than docs/believed.sh prints"
    exit 1
fi
docs/reading.py --check
