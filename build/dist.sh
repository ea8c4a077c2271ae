#!/bin/sh
# sh build/dist.sh  packs the program with its manual, completions, examples and pages, and the page for a browser and the
# library where they stand beside it, all of one commit, as bin/ira-linux-x86_64.tar.gz. What is packed has no time and no owner
# of this machine: the same files give the same bytes.
set -e
name=ira-linux-x86_64
folder=bin/$name
. build/packed.sh

# A program that needs the C library of the machine isn't packed.
if ldd "$ira" > /dev/null 2>&1; then
    echo "bin/ira isn't static: install libc.a (glibc's static library), then: make clean dist" >&2
    exit 1
fi

rm -rf "$folder" "bin/$name.tar.gz"
mkdir -p "$folder"
sh build/install.sh "$folder" 2> /dev/null
cp "${pages:-.}/LICENSE-MIT" "${pages:-.}/LICENSE-APACHE" "$folder"
if [ -n "$pages" ]; then
    mkdir -p "$folder/docs" "$folder/checks"
    cp "$pages"/docs/*.md "$folder/docs"
    cp -r "$pages/examples" "$pages/library" "$folder"
    rm -rf "$folder/library/__pycache__"
    cp "$pages/checks/examples.sh" "$folder/checks"
    sed -n '/^## Licences$/,$p' "$pages/build/release-README.md" > "$folder/LICENSES.md"
    for it in libira.a libira.so ira.wasm; do
        [ ! -f $from/$it ] || cp $from/$it "$folder/library"
    done
    row='@WEB@'
    if [ -f $from/ira.html ]; then
        cp $from/ira.html "$folder"
        row='| `ira.html` | the auditor as a page: open it in a browser, and drop a folder of logs on it |'
    fi
    kit=$(sed -n 's/^kit: //p' $from/TREE)
    sed -e "s/^@WEB@$/$row/" -e '/^@WEB@$/d' -e "s/@COMMIT@/$commit/" -e "s/@KIT@/$kit/" "$pages/build/dist-README.md" \
        > "$folder/README.md"
else
    echo 'so the program, the page and their README alone are packed' >&2
    cp release/ira.html release/README.md "$folder"
fi
(cd "$folder" && find . -type f ! -name SHA256SUMS -print0 | LC_ALL=C sort -z | xargs -0 sha256sum > SHA256SUMS)
tar -C bin --sort=name --mtime=@0 --owner=0 --group=0 --numeric-owner -cf - "$name" | gzip -n -9 > "bin/$name.tar.gz"
rm -r "$folder"
echo "bin/$name.tar.gz"
