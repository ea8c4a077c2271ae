#!/bin/sh
# Each definition that checks/definitions.txt names is in the file that it names, below a comment that says it in words, or in a
# file that begins with one. Of these words a page is made where it is asked for.
#
#     sh checks/definitions.sh [--write FILE]
#
# In definitions.txt a line `SOURCE FILE: NAME ..` is of a file below crates/, without .antt, and of definitions in it. Headings,
# and lines that begin with a space, stand on the page as they are.

case $1 in
--write) page=$(realpath "$2") || exit 2 ;;
*) page=/dev/null ;;
esac
cd "$(dirname "$0")/.." || exit 2

awk -v page="$page" '
    function fail(what) {
        print "definitions: " what
        failed = 1
    }
    # Reads the comment at the head of a file, and that above each of its definitions.
    function read_words(path,    line, comment, is_head, part) {
        split("", words)
        head = ""
        is_head = 1
        while ((getline line < path) > 0) {
            if (line ~ /^--/) {
                sub(/^-- */, "", line)
                if (line !~ /^---* /) comment = comment (comment == "" ? "" : " ") line
                continue
            }
            if (is_head) head = comment
            is_head = 0
            if (line ~ /^(pub|abbrev) /) {
                gsub(/(pub|abbrev|record|data) /, "", line)
                split(line, part, /[ :({]/)
                if (!(part[1] in words)) words[part[1]] = comment
            }
            comment = ""
        }
        close(path)
    }
    /^#/ || /^ / || /^$/ { sub(/^ /, ""); print > page; next }
    {
        file = $2
        if (!sub(/:$/, "", file)) { fail("no line of a file: " $0); next }
        named++
        read_words("crates/" file ".antt")
        if (head == "" && NF == 2) fail("no words at the head of " file)
        print "\n**`" file "`** (" $1 ")" (head == "" ? "" : ": " head) "\n" > page
        for (i = 3; i <= NF; i++) {
            named++
            if (!($i in words) || words[$i] == "" && head == "") fail("no words of " $i " in " file)
            print "* `" $i "`" (words[$i] == "" ? "" : ": " words[$i]) > page
        }
    }
    END {
        if (named < 400) fail("no more than " named " are named")
        if (!failed) print "definitions: " named " files and definitions, each with words"
        exit failed
    }' checks/definitions.txt
