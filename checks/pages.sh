#!/bin/sh
# Runs the commands of pages, and compares what they print with what the pages say.
#
#     sh checks/pages.sh bin/ira
#
# A command is an indented line that begins with `$ `. What it prints, standard error too, are the lines after it, to the next
# command or the end of the indented block. The commands of a page run in its order, in one shell, at the root of a folder
# with the program as bin/ira and as release/ira and copies of examples/ and library/, where the page begins anew. A command that begins with `make` isn't
# run; where there is no Python, neither is one that begins with `python3`, nor what follows it in its block. A picture that a
# command leaves at the root is the one of that name in docs/.

ira=$(realpath "$1") || exit 2
[ -x "$ira" ] || { echo "pages: no program at $1"; exit 2; }
cd "$(dirname "$0")/.." || exit 2
root=$PWD
made=$(mktemp -d) || exit 2
trap 'rm -rf "$made"' EXIT
LC_ALL=C
export LC_ALL

# Writes the commands of a page to files: N.command, and N.said, what it prints; and a line for each: N, its block, its line.
take_out() {
    awk -v to="$2" '
        /^    \$ / {
            if (!in_block) block++
            in_block = 1; empty = 0
            close(said)
            said = to "/" ++n ".said"
            printf "" > said
            command = to "/" n ".command"
            print substr($0, 7) > command
            close(command)
            print n, block, NR
            next
        }
        /^    / && in_block {
            for (; empty > 0; empty--) print "" > said
            print substr($0, 5) > said
            next
        }
        /^$/ { empty++; next }
        { in_block = 0 }' "$1" > "$2/commands"
}

for page in README.md docs/*.md build/dist-README.md; do
    rm -rf "$made"/* && mkdir "$made/page" "$made/root" "$made/root/bin" "$made/root/release"
    cp -r examples library "$made/root"
    ln -s "$ira" "$made/root/bin/ira"
    ln -s "$ira" "$made/root/release/ira"
    take_out "$page" "$made/page"
    [ -s "$made/page/commands" ] || continue
    with_commands=$((with_commands + 1))
    (
        cd "$made/root" || exit 2
        as_said=0 others=0 passed_over=0
        while read -r n block line; do
            command=$(cat "$made/page/$n.command")
            case $command in
            'make '*) continue ;;
            'python3 '*) command -v python3 > /dev/null || passed_over=$block ;;
            esac
            if [ "$passed_over" = "$block" ]; then
                echo "skipped: $page:$line (no python3)"
                continue
            fi
            eval "$command" > "$made/found" 2>&1 < /dev/null
            if [ "$(cat "$made/found")" = "$(cat "$made/page/$n.said")" ]; then
                as_said=$((as_said + 1))
            else
                echo "pages: $page:$line: \$ $command"
                diff "$made/page/$n.said" "$made/found"
                others=$((others + 1))
            fi
        done < "$made/page/commands"
        for picture in *.svg; do
            [ -e "$picture" ] || continue
            cmp "$root/docs/$picture" "$picture" || others=$((others + 1))
        done
        echo "pages: $page: $as_said commands print what it says, $others don't"
        [ "$as_said" -gt 0 ] && [ "$others" -eq 0 ]
    ) || failed=1
done

[ "${with_commands:-0}" -ge 4 ] || { echo "pages: hardly a page has commands"; failed=1; }
[ -z "$failed" ]
