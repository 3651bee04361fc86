#!/bin/sh
# A lint: it only reads text, and proves and runs nothing. README's tables of what a reader must believe are those that
# docs/believe prints now. A file of crates/*/specs that is not in them begins with "-- Nothing to believe: ", and a
# file that is in them does not. Lib.antt, which only names the files of its crate, is excepted.
set -u
cd "$(dirname "$0")/.." || exit 1
. tests/shared
begins

logged "$scratch/printed" sh docs/believe
sh docs/believe --marked > "$scratch/marked"
same "README's tables are not what docs/believe prints; docs/believe --write mends them" "$scratch/marked"

logged "$scratch/listed" sh docs/believe --files
for file in crates/*/specs/*.antt; do
    case "$file" in */Lib.antt) continue ;; esac
    runs=$((runs + 1))
    IFS= read -r first < "$file"
    case "$first" in
        '-- Nothing to believe: '*) says=yes ;;
        *) says=no ;;
    esac
    if grep -qxF "$file" "$scratch/listed"; then
        [ "$says" = no ] || fails "$file is in the tables, but begins with \"Nothing to believe\""
    else
        [ "$says" = yes ] || fails "$file is not in the tables, but does not begin with \"-- Nothing to believe: \""
    fi
done

ends
