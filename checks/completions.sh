#!/bin/sh
# Completions, the manual page and the tables of COMMANDS.md are what command_words.py makes of the command line, and the
# options of the program's help are those that bash completes.
#
#     sh checks/completions.sh bin/ira

ira=$(realpath "$1") || exit 2
[ -x "$ira" ] || { echo "completions: no program at $1"; exit 2; }
cd "$(dirname "$0")/../completions" || exit 2
differ=0

if command -v python3 > /dev/null; then
    python3 ../checks/command_words.py || differ=1
else
    echo 'skipped: that completions and pages are made of the command line (no python3)'
fi

# Compares two lists of words, in any order: what is compared, the help's, the completion's.
compare() {
    helps=$(echo "$2" | tr -s ' ' '\n' | sort)
    knows=$(echo "$3" | tr -s ' ' '\n' | sort)
    [ "$helps" = "$knows" ] || {
        echo "completions: $1:" "the help has" $helps, "the completion has" $knows
        differ=1
    }
}

commands=$("$ira" --help 2>&1 | sed -n '/^Commands:/,/^$/s/^  \([a-z]*\) .*/\1/p')
[ -n "$commands" ] || { echo 'completions: the help has no commands'; exit 1; }
compare ira.bash "$commands" "$(sed -n "s/^_ira_commands='\(.*\)'/\1/p" ira.bash)"
for command in $commands; do
    [ "$command" = help ] && continue
    options=$("$ira" "$command" --help 2>&1 | sed -n 's/^ *\(-[a-z], \)\{0,1\}\(--[a-z]*\).*/\2/p')
    compare "ira.bash: $command" "$options" "$(sed -n "s/^ *$command) echo \(.*\) ;;/\1/p" ira.bash)"
done

# Each is read by its own shell where that is there.
for it in 'bash -n ira.bash' 'zsh -n _ira' 'fish -n ira.fish'; do
    if command -v "${it%% *}" > /dev/null; then
        $it || differ=1
    else
        echo "skipped: that ${it%% *} reads ${it##* } (no ${it%% *})"
    fi
done

# The options that ask for the version print what the command prints.
for option in --version -V; do
    [ "$("$ira" "$option")" = "$("$ira" version)" ] || { echo "completions: $option prints another version"; differ=1; }
done

[ "$differ" -eq 0 ] && echo 'completions: as the help says'
