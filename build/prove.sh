#!/bin/sh
# sh build/prove.sh [web] [lib] [proved]  proves and builds the program, bin/ira, with bin/ira.o, the object file that was
# linked; with `web` the module for a browser too, and the page that has it, bin/ira.html; with `lib` the same module as a
# library, bin/libira.a and bin/libira.so. bin/TREE says what they were made of (build/tree.sh).
#
# The libraries are proved by `rt ci`, in a copy without tests: so what the gate proved of the same files is
# taken from where the kit keeps it, and what is proved here is there for the gate. With `proved` they are those that
# `rt ci` left in crates/NAME/out of these files: not every kit keeps them. The program and the module are proved in the
# same way: from nothing, over what the libraries state.
set -e
here=$PWD web='' lib='' proved=''
for it in "$@"; do
    case $it in
    web) web=web ;;
    lib) lib=lib ;;
    proved) proved=proved ;;
    *) echo "prove.sh: web, lib or proved, and not $it" >&2; exit 2 ;;
    esac
done
made="bin/ira${web:+, bin/ira.html}${lib:+, bin/libira.a, bin/libira.so}"
kit=$(dirname "$(dirname "$(realpath "$(command -v rattle)")")")
room=$(mktemp -d)
trap 'rm -rf "$room"' EXIT
running=''
trap 'kill $running 2> /dev/null || true; exit 130' HUP INT TERM

mkdir -p bin
tar -c --exclude=out --exclude='test_*' crates crates.txt HANDLES build web examples | tar -x -C "$room"
cd "$room"
mkdir bin rlibs libraries
sh build/tree.sh > bin/TREE
if ! cmp -s bin/TREE "$here/bin/TREE"; then
    (cd "$here/bin" && rm -f ira ira.html ira.wasm libira.a libira.so)
elif [ -x "$here/bin/ira" ] && { [ -z "$web" ] || [ -f "$here/bin/ira.html" ]; } &&
    { [ -z "$lib" ] || [ -f "$here/bin/libira.so" ]; }; then
    echo "$made: proved and built of these sources before"
    exit 0
fi

mv crates/ira crates/ira_web .
if [ -n "$proved" ]; then
    cp -r "$here"/crates/*/out/rlib/*.rlib rlibs
else
    mv crates HANDLES libraries
    sed '/^test_/d; /^ira:/d; /^ira_web /d' crates.txt > libraries/crates.txt
    (cd libraries && rt ci)
    mv libraries/crates/*/out/rlib/*.rlib rlibs
fi

# Proves and builds the crate that stands in a folder of its name.
build() {
    name=$1 root=$2
    shift 2
    set -- --crate-name "$name" "$root" --extern "std=$kit/rlibs/std.rlib" "$@"
    for it in $(sed -n "s/^$name\( staticlib\)\{0,1\}://p" crates.txt); do
        if [ -d "rlibs/$it.rlib" ]; then at=$room/rlibs; else at=$kit/rlibs; fi
        set -- "$@" --extern "$it=$at/$it.rlib"
    done
    cd "$name"
    rattle build "$@" -L "dependency=$kit/rlibs" -L "dependency=$room/rlibs" --links "$name=" --jobs "$(nproc)" \
        --antt-project "$kit/rattle/logic/antt-project.json" --logic-built "$kit/logic_built" --toolchain "$kit/toolchain" &
    trap "kill $!" TERM
    wait $!
    cd "$room"
}

# The machine's C library goes into the program, which then starts in three quarters of the time and needs nothing of the
# machine that it runs on. bin/LINKED has the sums of the object file and of what the machine gave. Where there is no C
# library to link so, the kit links as in the gate.
program() {
    build ira src/main.rt --backend llvm -o "$room/bin/ira.o"
    echo "ira.o: $(sha256sum < bin/ira.o | cut -d ' ' -f 1)" > bin/LINKED
    set -- -o bin/ira bin/ira.o "$kit/c/libos_c.a" "$kit/c/liblibc_c.a"
    if "$kit/toolchain/bin/clang" -static -fuse-ld=lld -Wl,--trace "$@" > linked; then
        given=$(sed 's/(.*//' linked | grep -v "^bin/\|^$kit/" | sort -u)
        echo "libc: $(cat $given | sha256sum | cut -d ' ' -f 1)" >> bin/LINKED
    else
        "$kit/bin/rattle-link" --target x86_64-unknown-linux-gnu --toolchain "$kit/toolchain" "$@"
    fi
}

module() {
    target=wasm64-unknown-unknown
    build ira_web src/lib.rt --crate-type staticlib --target $target -o "$room/ira_web.a"
    "$kit/bin/rattle-link" --target $target --toolchain "$kit/toolchain" -o bin/ira.wasm ira_web.a
    sh build/web_page.sh
}

# The library wants nothing but memcpy, memmove and memset, which each program that loads it has of its C library.
library() {
    build ira_web src/lib.rt --crate-type staticlib -o "$room/bin/libira.a"
    "$kit/toolchain/bin/clang" -shared -nostdlib -fuse-ld=lld -o bin/libira.so -Wl,--whole-archive bin/libira.a \
        -Wl,--no-whole-archive
}

# Side by side, each in up to 2.4 GB.
for it in program ${web:+module} ${lib:+library}; do
    $it &
    running="$running $!"
done
failed=0
for it in $running; do
    wait "$it" || failed=1
done
[ $failed = 0 ] || exit 1
mv bin/* "$here/bin"
echo "proved and built: $made"
