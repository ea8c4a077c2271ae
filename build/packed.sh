# . build/packed.sh  sets what is installed and packed together, all of one commit: `ira`, the program that build/program.sh
# names; `from`, its folder; `commit`; and `pages`, the folder with the manual, completions, pages, examples, checks and
# library of it: the repository where the program is of its sources, else what the release has of its commit, unpacked in
# $room, or nothing.
room=$(mktemp -d) || exit 2
trap 'rm -rf "$room"' EXIT
trap 'exit 130' HUP INT TERM
pages=.
ira=$(sh build/program.sh) || case $? in
3)
    pages=$room/pages
    sh build/release.sh unpack "$pages" || pages=''
    ;;
*) exit 1 ;;
esac
from=${ira%/ira}
commit=$(sed -n 's/^commit: //p' release/TREE)
if [ "$from" = bin ]; then
    commit=$(git rev-parse HEAD 2> /dev/null || echo unknown)
    git diff --quiet HEAD 2> /dev/null || commit="$commit, with changes"
fi
