#!/usr/bin/env bash
# Runs a script, show.sql unless one is named, on copies of the tables beside this file.
# Where `rt ci` has built the program, it is the proved one; else `rt try` runs it, and proves nothing.
set -u
script=$(realpath -- "${1:-$(dirname "${BASH_SOURCE[0]}")/show.sql}") || exit 2
cd "$(dirname "${BASH_SOURCE[0]}")" || exit 2
examples=$PWD
crate=$examples/../crates/deltamerge

copies=$(mktemp -d) || exit 2
trap 'rm -rf "$copies"' EXIT
cp -r sales "$copies" && cd "$copies" || exit 2

if [[ -x $crate/out/deltamerge ]]; then
    "$crate/out/deltamerge" <"$script"
    exit
fi

echo "run.sh: the program isn't built: it is tried without a proof ('rt ci' at the root proves and builds it);" \
    "the folders of the table's files are named with a '-' then, since no '=' may stand in a name there" >&2
sed -i 's/region=/region-/g' sales/_delta_log/*.json
for folder in sales/region=*; do
    mv "$folder" "${folder/=/-}"
done
data=()
while IFS= read -r file; do
    data+=(--data "$file=$copies/$file")
done < <(find sales -type f | sort)
cd "$crate" && rt try "${data[@]}" <"$script"
