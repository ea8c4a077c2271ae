#!/bin/sh
# sh checks/release.sh  changes a copy of release/ in each way that build/release.sh is to refuse, and holds with what
# status it does: its files against their sums, and what was released against what was built of the same sources. Then, in
# a copy of the repository whose sources and pages have gone on, that what is installed and packed is of one commit; and
# where release/ has its pages, that a package tries itself.
cd "$(dirname "$0")/.." || exit 2
root=$PWD
room=$(mktemp -d) || exit 2
trap 'rm -rf "$room"' EXIT
cp -r build release "$room" && cd "$room" || exit 2
tried=0

# A release of before, which lacks them, is taken for one that has a library and pages.
if ! grep -q '^files: ' release/TREE; then
    echo library > release/libira.so
    tar -c build | gzip -n > release/pages.tar.gz
    echo 'files: ira ira.html libira.so pages.tar.gz LINKED README.md TREE' >> release/TREE
fi
files=$(sed -n 's/^files: //p' release/TREE)

fail() {
    echo "failed: $1"
    exit 1
}
# Whether a command of build/release.sh ends with this status, with the release as it was changed.
ends() {
    wanted=$1 what=$2
    shift 2
    said=$(sh build/release.sh "$@" 2>&1)
    status=$?
    tried=$((tried + 1))
    [ $status = "$wanted" ] || fail "$what: $1 ends with $status, not with $wanted: $said"
}
# shellcheck disable=SC2086
anew() { (cd release && sha256sum $files > SHA256SUMS); }
back() { rm -r release && cp -r kept release; }
# Changes the first digit of a field of release/LINKED.
digit() { sed -i "s/^$1: ./$1: x/" release/LINKED; }

anew
cp -r release built && cp -r release kept && gzip -d built/pages.tar.gz || exit 2
ends 0 'as it was released' sums
ends 0 'as it was released' compare built
for file in $files; do
    echo >> "release/$file"
    ends 1 "a byte added to $file" sums
    sed -i "/  $file$/d" release/SHA256SUMS
    ends 1 "a byte added to $file, and its sum left out" sums
    back
done
for file in ira.html libira.so pages.tar.gz; do
    if [ $file = pages.tar.gz ]; then echo | gzip -n >> release/$file; else echo >> release/$file; fi
    anew
    ends 1 "a byte added to $file, the sums made anew" compare built
    back
done
echo >> release/ira && anew
ends 1 'a byte added to ira, the sums made anew' compare built
digit libc && anew
ends 3 'the same, and another C library' compare built
back && digit libc && anew
ends 3 'another C library' compare built
back && digit ira.o && anew
ends 1 'another object file' compare built
digit libc && anew
ends 1 'another object file and C library' compare built
echo "release: $tried looks at release/, changed in each way, end as they should"

# From here on a copy of the repository with a program that says a version alone, as it was released and then went on:
# lines with `gone on` in its pages, which no package of the release may have.
[ "$(uname -sm)" = 'Linux x86_64' ] || { echo 'skipped: what is installed and packed (another machine)'; exit 0; }
cd "$room" && rm -r build release built kept && mkdir out || exit 2
(cd "$root" && tar -c --exclude=bin --exclude=dist --exclude=.git --exclude=crates --exclude=__pycache__ .) | tar -x
mkdir -p crates/one/src && echo > crates/one/src/lib.rt
printf '#!/bin/sh\necho "ira 0.0.1 (proved by rattle, logic 0)"\n' > release/ira
echo library > release/libira.so
printf 'commit: 0\nkit: none\n%s\nfiles: %s\n' "$(sh build/tree.sh 2> /dev/null | grep -v '^kit: ')" "$files" > release/TREE
tar -c --exclude=./release --exclude=./out --exclude=./crates . | gzip -n > release/pages.tar.gz
anew

packers='install dist'
command -v python3 > /dev/null && packers="$packers wheel" || echo 'skipped: the wheel (no python3)'
command -v dpkg-deb > /dev/null && packers="$packers deb" || echo 'skipped: the package for Debian (no dpkg-deb)'
# Packs all, and unpacks it in out: whether each of them has what is asked, and none or all of them a page that went on.
packs() {
    rm -rf out/* bin/*.gz dist
    for it in $packers npm; do
        case $it in
        install) make -s install DESTDIR=out/install PREFIX= ;;
        dist) make -s dist ;;
        *) sh library/$it.sh ;;
        esac > out/$it.said 2>&1
        echo $? > out/$it.status
        mkdir -p out/$it
    done
    [ ! -f bin/ira-linux-x86_64.tar.gz ] || tar -xzf bin/ira-linux-x86_64.tar.gz -C out/dist
    for it in dist/*; do
        case $it in
        *.whl) python3 -m zipfile -e "$it" out/wheel ;;
        *.tgz) tar -xzf "$it" -C out/npm ;;
        *.deb) dpkg-deb -x "$it" out/deb && gzip -d out/deb/usr/share/man/man1/ira.1.gz ;;
        esac
    done
}
went_on() { grep -rl 'gone on' out/$1 2> /dev/null | sed "s|^out/$1/||" | paste -s -d ' ' -; }
looks() {
    packs
    for it in $packers npm; do
        [ "$(cat out/$it.status)" = "$2" ] || [ "$3" = some ] || fail "$1: $it ends with $(cat out/$it.status): $(cat out/$it.said)"
        tried=$((tried + 1))
        found=$(went_on $it)
        case $3:$found in
        all:?* | none: | some: | some:*LICENSE-MIT) ;;
        *) fail "$1: $it has of the pages that went on: ${found:-none}" ;;
        esac
    done
}
looks 'as it was released' 0 none
for it in docs/ira.1 docs/COMMANDS.md completions/ira.bash examples/README.md library/ira.py library/ira.mjs LICENSE-MIT; do
    echo 'gone on' >> $it
done
looks 'a page that went on, and no source' 0 all
echo 'gone on' >> crates/one/src/lib.rt
looks 'sources that went on' 0 none
for it in out/dist/*/docs/COMMANDS.md out/install/share/man/man1/ira.1 out/install/bin/ira; do
    [ -f $it ] || fail "sources that went on: no $it"
done
mkdir -p bin && cp release/ira release/libira.so release/ira.html bin && cp release/TREE bin
looks 'a program of other sources in bin' 0 none
sh build/tree.sh 2> /dev/null > bin/TREE
looks 'a program of these sources in bin' 0 all
rm -r bin && sed -i '/^files: /d' release/TREE && rm release/pages.tar.gz release/libira.so
files='ira ira.html LINKED README.md TREE'
anew
looks 'a release without pages' 0 some
[ -x out/install/bin/ira ] && [ ! -e out/install/share ] && grep -q 'no manual' out/install.said && grep -q 'no manual' out/dist.said ||
    fail "a release without pages: $(ls -R out/install) $(cat out/install.said out/dist.said)"
said=$(make -s checks CHECKS='examples' 2>&1) && echo "$said" | grep -q '^skipped: examples (no program of these sources)$' ||
    fail "checks where no program of these sources is: $said"
echo "release: what is installed and packed is of one commit, $tried looks in all"

# A package of the release tries itself, of sources that went on too.
if [ ! -f "$root/release/pages.tar.gz" ]; then
    echo 'skipped: the examples of a package (release/ has no pages)'
    exit 0
fi
rm -rf release && cp -r "$root/release" . && rm -rf out/dist && mkdir out/dist && make -s dist 2> /dev/null &&
    tar -xzf bin/ira-linux-x86_64.tar.gz -C out/dist && cd out/dist/* && sha256sum -c --quiet SHA256SUMS && sh checks/examples.sh bin/ira
