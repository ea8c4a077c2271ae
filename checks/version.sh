#!/bin/sh
# The logic that the program's version names is the one that README.md names, and that of the toolchain where it is there; and
# CHANGELOG.md has a heading for the version: `After ..` for one that ends in -dev, which none that is released does.
#
#     sh checks/version.sh bin/ira

ira=$(realpath "$1") || exit 2
[ -x "$ira" ] || { echo "version: no program at $1"; exit 2; }
cd "$(dirname "$0")/.." || exit 2
failed=0

said=$("$ira" version)
version=$(echo "$said" | sed -n 's/^ira \([0-9.]*\(-dev\)\{0,1\}\) (proved by rattle, logic [0-9a-f]*)$/\1/p')
logic=$(echo "$said" | sed -n 's/.*\(logic [0-9a-f]*\)).*/\1/p')
[ -n "$version" ] && [ -n "$logic" ] || { echo "version: $said"; exit 1; }
grep -q "\`$logic\`" README.md || { echo "version: $said, and README.md names another logic"; failed=1; }
heading="## $version"
[ "$version" = "${version%-dev}" ] || heading='## After .*'
grep -qx "$heading" CHANGELOG.md || { echo "version: $said, and CHANGELOG.md has no heading for it"; failed=1; }
if command -v rt > /dev/null; then
    rt version | grep -q "$logic\$" || { echo "version: $said, and the toolchain is $(rt version)"; failed=1; }
else
    echo 'skipped: the logic of the toolchain (no Rattle kit)'
fi
[ "$failed" -eq 0 ] && echo "version: $said"
