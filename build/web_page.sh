#!/bin/sh
# sh build/web_page.sh  puts the module bin/ira.wasm, the page of web/ and the examples into one file, bin/ira.html,
# which works from a disk: the module in base64, and each example as a text of its own.
set -e
room=$(mktemp -d)
trap 'rm -rf "$room"' EXIT

cp web/style.css web/worker.js web/page.js "$room"
base64 -w 120 bin/ira.wasm > "$room/module"
for file in examples/*/*.log examples/*/*.ask examples/*/*.cert; do
    printf '<script type="text/plain" data-example="%s">' "${file#examples/}"
    cat "$file"
    echo '</script>'
done > "$room/examples"
if grep -qi '</script' "$room/style.css" "$room/worker.js" "$room/page.js" ||
    [ "$(grep -ci '<script' "$room/examples")" != "$(grep -c '^</script>\|</script>$' "$room/examples")" ]; then
    echo 'web_page.sh: a text ends a script' >&2
    exit 1
fi

# A line of @NAME@ alone is that file.
echo "s/@sha256@/$(sha256sum < bin/ira.wasm | cut -c 1-64)/" > "$room/edits"
for name in style.css worker.js page.js module examples; do
    printf '/^@%s@$/{\nr %s\nd\n}\n' "$name" "$room/$name" >> "$room/edits"
done
sed -f "$room/edits" web/page.html > bin/ira.html.new
mv bin/ira.html.new bin/ira.html
echo "bin/ira.html: $(wc -c < bin/ira.html) bytes"
