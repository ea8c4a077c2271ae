#!/bin/sh
# sh library/npm.sh  packs library/ira.mjs, its types and command line, and the page with its module, of one commit
# (build/packed.sh), as a package for npm, dist/ira-*.tgz.
set -e
. build/packed.sh
[ -n "$pages" ] && [ -f $from/ira.html ] || { echo "$from/ has no ira.html with an ira.mjs of its commit: make web" >&2; exit 1; }
version=$("$ira" version | sed 's/^ira \([^ ]*\) .*/\1/')
mkdir -p "$room/package" dist
for it in ira.mjs ira.d.mts cli.mjs README.md; do cp "$pages/library/$it" "$room/package"; done
cp $from/ira.html "$pages/LICENSE-MIT" "$pages/LICENSE-APACHE" "$room/package"
chmod 755 "$room/package/cli.mjs"
cat > "$room/package/package.json" <<END
{
  "name": "ira",
  "version": "$version",
  "description": "Audits logs of Itai-Rodeh leader elections on anonymous rings",
  "license": "(MIT OR Apache-2.0)",
  "type": "module",
  "exports": {".": {"types": "./ira.d.mts", "default": "./ira.mjs"}},
  "types": "./ira.d.mts",
  "bin": {"ira": "cli.mjs"},
  "engines": {"node": ">=20"}
}
END
tar -C "$room" --sort=name --mtime=@0 --owner=0 --group=0 --numeric-owner -cf - package | gzip -n -9 > "dist/ira-$version.tgz"
echo "dist/ira-$version.tgz"
