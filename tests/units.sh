#!/usr/bin/env bash
# The tests that stand beside their modules in files `tests.rt.in`: compiled with checks and run, unproved. All are
# compiled at once, since to compile a crate takes as long as to compile what it stands on: in a copy of the crates a
# further one, `units`, has the sources of each crate with tests as a module of its own, over the crates as they stand.
# Each test of the sources must have run and passed.
# usage: tests/units.sh [CRATE..]
set -euo pipefail
cd "$(dirname "$0")/.."
. tests/copies
needed=("$@")
[ "$#" != 0 ] || mapfile -t needed < <(find crates -name 'tests.rt.in' | cut -d/ -f2 | sort -u)
# shellcheck disable=SC2046
copy_crates sources $(grep -oE '^[a-z0-9_]+' crates.txt)

# add_module CRATE: adds the crate's sources with their tests as a module. Names of its own begin at the module there;
# the lemmas that an attribute names stay, which nothing reads here.
add_module() {
    local crate=$1 file module=units/src/units_$1
    cp -a "$crate/src" "$module"
    mv "$module/lib.rt" "$module/mod.rt"
    find "$module" -name tests.rt.in | while read -r file; do
        file=$(dirname "$file")
        [ "$file" != "$module" ] || file=$module/mod
        printf '\n#[cfg(test)]\nmod tests;\n' >> "$file.rt"
    done
    name_files "$module"
    find "$module" -name '*.rt' -exec sed -i '/^#!\[tactic(auto)\]$/d' {} + \
        -exec perl -pi -e "s/\\bcrate::(?!proofs::)/crate::units_$crate\::/g" {} +
    echo "pub mod units_$crate;"
}

cd "$folder/crates"
mkdir -p units/src
for crate in "${needed[@]}"; do add_module "$crate"; done > units/modules
printf '//! All tests beside their modules.\n#![tactic(auto)]\n\n' | cat - units/modules > units/src/lib.rt
# tests of mbox_rd write records, which are their site's, and its code names neither
libraries=$(printf '%s\n' "${needed[@]}" lmtp_text mbox_record | sed 's/.*/^& *:/' | grep -f - "$folder/crates.txt" |
    cut -d: -f2 | tr ' ' '\n' | cat - <(printf 'lmtp_text\nmbox_record\n') | sort -u | tr '\n' ' ')
echo "units: $libraries" >> "$folder/crates.txt"

cd units
status=0
"$rt" try --test --seconds 2000 > "$folder/said" 2>&1 || status=$?
failed=0
for crate in "${needed[@]}"; do
    tests=$(tests_in src/units_"$crate")
    passed=$(grep -cE "^test units_$crate::.* ok$" "$folder/said" || true)
    if [ "$passed" = "$tests" ]; then
        echo "ok: $crate: $tests tests passed"
    else
        echo "FAILED: $crate: $passed of $tests tests passed"
        failed=1
    fi
done
if [ "$status" != 0 ] || [ "$failed" != 0 ]; then
    cat "$folder/said"
    echo "FAILED: rt try ended with status $status"
    exit 1
fi
