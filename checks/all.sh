#!/bin/sh
# Holds the program from outside, by checks that no proof gives, and says in its last line which ran, what was skipped and why.
#
#     sh checks/all.sh bin/ira [CHECK...]
#
# Those that are named run, or all; where - stands for the program, those that need none. What a check skips itself it
# names in a line `skipped: WHAT (WHY)`.

ira=-
if [ "$1" != - ]; then
    ira=$(realpath "$1") || exit 2
    [ -x "$ira" ] || { echo "checks: no program at $1"; exit 2; }
fi
folder=$(dirname "$ira")
page=$folder/ira.html
cd "$(dirname "$0")" || exit 2
shift
all='definitions names sentences weight refused release examples limits pages completions version pictures script page web library json plain hints writes odd_names refusals recorders sweep'
said=$(mktemp) || exit 2
trap 'rm -f "$said"' EXIT

for name in "$@"; do
    case " $all " in
    *" $name "*) ;;
    *) echo "checks: there are $all, and no $name"; exit 2 ;;
    esac
done

# Whether there is a page of these sources.
has_page() {
    [ -f "$page" ] && (cd .. && sh build/tree.sh) | grep '^page: ' | grep -qxFf - "$folder/TREE"
}

# What a check needs and isn't there.
lacks() {
    case $ira:$1 in
    *:definitions | *:names | *:weight | *:release) return ;;
    *:sentences)
        command -v python3 > /dev/null || echo 'no python3'
        return
        ;;
    *:refused)
        command -v rt > /dev/null && command -v python3 > /dev/null || { echo 'no Rattle kit'; return; }
        [ -d ../crates/ira_event/out/rlib ] || echo 'no libraries: make prove'
        return
        ;;
    -:*)
        echo 'no program of these sources'
        return
        ;;
    esac
    case $1 in
    # limits and json would take it many minutes, and it gets no memory by the C library
    version | limits | json | odd_names | refusals | sweep)
        ! "$ira" version | grep -q '(not proved' || { echo 'a program that was built with no proof'; return; }
        ;;
    esac
    case $1 in
    pictures | script | page | web | library | json | plain | hints | writes | odd_names | refusals | sweep) command -v python3 > /dev/null || { echo 'no python3'; return; } ;;
    esac
    case $1 in
    script) command -v node > /dev/null || echo 'no node' ;;
    page | web)
        command -v chromium > /dev/null && command -v chromedriver > /dev/null || { echo 'no chromium and chromedriver'; return; }
        [ "$1" = page ] || has_page || echo 'no ira.html of these sources beside the program: make web'
        ;;
    library)
        [ -f "$folder/libira.so" ] || [ -f "$page" ] || echo 'no library beside the program: make lib'
        ;;
    refusals | sweep)
        [ -f "$ira.o" ] || ldd "$ira" > /dev/null 2>&1 || { echo 'a static program, without the object file that make ira leaves'; return; }
        command -v rt > /dev/null || echo 'no Rattle kit'
        ;;
    esac
}

# The object file of the program, where it is there, else the program.
of_ira() {
    if [ -f "$ira.o" ]; then echo "$ira.o"; else echo "$ira"; fi
}

check() {
    case $1 in
    definitions | names | weight | release) sh "$1.sh" ;;
    examples | limits | pages | completions | version | recorders) sh "$1.sh" "$ira" ;;
    pictures) python3 -B pictures.py "$ira" ;;
    script) python3 -B script.py "$ira" ;;
    page) python3 -B page.py "$ira" ;;
    web) python3 -B web.py "$ira" "$page" ;;
    library) python3 -B library.py "$ira" "$folder" ;;
    json) python3 -B json_lines.py "$ira" ;;
    plain) python3 -B plain_pages.py "$ira" ;;
    sentences) python3 -B sentences.py ;;
    refused) python3 -B refused.py ;;
    hints) python3 -B hints.py "$ira" ;;
    writes) python3 -B writes.py "$ira" ;;
    odd_names) python3 -B odd_names.py "$ira" ;;
    refusals) python3 -B sweep.py --short "$(of_ira)" ;;
    sweep) python3 -B sweep.py "$(of_ira)" ;;
    esac
}

# Adds a name to a list of names.
listed() {
    echo "${1:+$1, }$2"
}

ran='' left_out=''
for name in ${*:-$all}; do
    why=$(lacks "$name")
    if [ -n "$why" ]; then
        echo "skipped: $name ($why)" | tee -a "$said"
    else
        ran=$(listed "$ran" "$name")
        { check "$name" || echo "failed: $name"; } 2>&1 | tee -a "$said"
    fi
done
for name in $all; do
    case " ${*:-$all} " in
    *" $name "*) ;;
    *) left_out=$(listed "$left_out" "$name") ;;
    esac
done

# What was said after such a word, on one line.
lines_of() {
    sed -n "s/^$1: //p" "$said" | paste -s -d , - | sed 's/,\([^ ]\)/, \1/g'
}

skipped=$(lines_of skipped)
failed=$(lines_of failed)
echo "checks: ran ${ran:-none}${skipped:+; skipped $skipped}${left_out:+; not asked for $left_out}; failed ${failed:-none}"
[ -z "$failed" ]
