#!/bin/sh
# sh library/deb.sh  packs the program, its manual and completions and the licences, of one commit (build/packed.sh), as a
# package for Debian, dist/ira_*.deb. It needs dpkg-deb.
set -e
. build/packed.sh
[ -n "$pages" ] || { echo 'so there is no package for Debian' >&2; exit 1; }
version=$("$ira" version | sed 's/^ira \([^ ]*\) .*/\1/; s/-dev/~dev/')
root=$room/deb doc=$room/deb/usr/share/doc/ira
umask 022
mkdir -p "$doc" "$root/DEBIAN" "$root/usr/share/lintian/overrides" dist
# (no time of this machine, and none that lintian takes for a mistake)
date='Wed, 01 Jan 2020 00:00:00 +0000'
# The bytes of the program are those that were released and may be held against it; ours has no year and no mail host.
cat > "$root/usr/share/lintian/overrides/ira" <<END
ira: statically-linked-binary
ira: unstripped-binary-or-object
ira: copyright-without-copyright-notice
ira: bogus-mail-host
ira: bogus-mail-host-in-debian-changelog
END
sh build/install.sh "$root/usr" 2> /dev/null
chmod -R u=rwX,go=rX "$root"
mkdir -p "$root/usr/share/zsh/vendor-completions"
mv "$root/usr/share/zsh/site-functions/_ira" "$root/usr/share/zsh/vendor-completions"
rmdir "$root/usr/share/zsh/site-functions"
gzip -n -9 "$root/usr/share/man/man1/ira.1"
cat > "$doc/copyright" <<END
Format: https://www.debian.org/doc/packaging-manuals/copyright-format/1.0/
Upstream-Name: ira

Files: *
Copyright: the authors of ira
License: MIT or Apache-2.0
 $(sed -e 's/^$/./' "$pages/LICENSE-MIT" | sed '2,$s/^/ /')
 .
 Apache-2.0 is in /usr/share/common-licenses/Apache-2.0. Linked into the program are:
 .
END
sed -n '/^## Licences$/,$p' "$pages/build/release-README.md" |
    sed -n '/^| What /d; s/^| \(.*\) | \(.*\) | \(.*\) |$/ \1: \2. \3/p' >> "$doc/copyright"
cat > "$doc/changelog" <<END
ira ($version) unstable; urgency=low

  * The release of commit $commit.

 -- ira <ira@localhost>  $date
END
gzip -n -9 "$doc/changelog"
cat > "$root/DEBIAN/control" <<END
Package: ira
Version: $version
Architecture: amd64
Maintainer: ira <ira@localhost>
Installed-Size: $(du -sk "$root/usr" | cut -f 1)
Section: devel
Priority: optional
Description: auditor of Itai-Rodeh leader elections on anonymous rings
 It reads the logs of all nodes of a ring, and says yes, they are a run of the
 algorithm or the beginning of one, or no with the first reason against it.
END
(cd "$root" && find usr -type f -print0 | LC_ALL=C sort -z | xargs -0 md5sum > DEBIAN/md5sums)
find "$root" -exec touch -h -d "$date" {} +
SOURCE_DATE_EPOCH=$(date -d "$date" +%s) dpkg-deb --root-owner-group --build "$root" "dist/ira_${version}_amd64.deb"
