#!/bin/sh
# sh build/tree.sh  prints what the program and the page are made of here: the kit's line, where there is a kit; a sum over
# what the program is made of; and a sum over what the page has beside that.
set -e
sum() {
    LC_ALL=C sort | xargs sha256sum | sha256sum | cut -d ' ' -f 1
}
command -v rt > /dev/null && echo "kit: $(rt version)"
crates=$(find crates/*/src crates/*/specs crates/*/proofs -type f 2> /dev/null | grep -v '^crates/test_')
printf 'crates: '
printf '%s\n' $crates crates.txt build/prove.sh | sum
printf 'page: '
printf '%s\n' web/* examples/*/*.log examples/*/*.ask examples/*/*.cert build/web_page.sh | sum
