#!/bin/sh
# sh build/install.sh FOLDER  copies the program to FOLDER/bin, and below FOLDER/share its manual and completions, of the
# same commit.
set -e
. build/packed.sh
install -D -m 755 "$ira" "$1/bin/ira"
if [ -z "$pages" ]; then
    echo 'so none are installed beside the program' >&2
    exit
fi
install -D -m 644 "$pages/docs/ira.1" "$1/share/man/man1/ira.1"
install -D -m 644 "$pages/completions/ira.bash" "$1/share/bash-completion/completions/ira"
install -D -m 644 "$pages/completions/_ira" "$1/share/zsh/site-functions/_ira"
install -D -m 644 "$pages/completions/ira.fish" "$1/share/fish/vendor_completions.d/ira.fish"
