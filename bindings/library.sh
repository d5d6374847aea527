# To be sourced from the repository's root: sets GIQAPSUN_LIB_DIR to the folder of libgiqapsun.a, as an absolute path,
# and has the commands that build from it. Where it was not set, the library is proved and built in target/staticlib,
# unless it is newer there than every file of crates/. What goes wrong is one line, and ends the script that sources
# this.

# the number of the record's layout, that of include/giqapsun.h
layout=4

# broken MESSAGE: prints the line and ends
broken() {
    echo "$1" >&2
    exit 1
}

# quietly NAME COMMAND..: runs a command, with all that it prints in target/outside/NAME.log
quietly() {
    local log=$PWD/target/outside/$1.log
    shift
    mkdir -p target/outside
    "$@" >"$log" 2>&1 || broken "failed: $* (see $log)"
}

# shared FOLDER: links the library as libgiqapsun.so with the layout's number, and libgiqapsun.so leading to it
shared() {
    quietly shared gcc -shared "-Wl,-soname,libgiqapsun.so.$layout" -Wl,--no-undefined \
        -Wl,--whole-archive "$GIQAPSUN_LIB_DIR/libgiqapsun.a" -Wl,--no-whole-archive -o "$1/libgiqapsun.so.$layout"
    ln -sf "libgiqapsun.so.$layout" "$1/libgiqapsun.so"
}

if [ -z "${GIQAPSUN_LIB_DIR:-}" ]; then
    GIQAPSUN_LIB_DIR=$PWD/target/staticlib
    if ! [ -f target/staticlib/libgiqapsun.a ] ||
        [ -n "$(find crates crates.txt -newer target/staticlib/libgiqapsun.a -print -quit)" ]; then
        command -v rt >/dev/null ||
            broken "no libgiqapsun.a: name its folder in GIQAPSUN_LIB_DIR, or install rt, which proves and builds it"
        quietly staticlib bash tools/build giqapsun
    fi
fi
[ -f "$GIQAPSUN_LIB_DIR/libgiqapsun.a" ] ||
    broken "no libgiqapsun.a in $GIQAPSUN_LIB_DIR, the folder that GIQAPSUN_LIB_DIR names"
symbols=$(nm "$GIQAPSUN_LIB_DIR/libgiqapsun.a" 2>&1 || true)
for call in read write check best better best_by_calendar work table check_by_curve best_by_curve; do
    grep -q " T giqapsun_${call}_$layout$" <<<"$symbols" ||
        broken "$GIQAPSUN_LIB_DIR/libgiqapsun.a has no function giqapsun_${call}_$layout"
done
GIQAPSUN_LIB_DIR=$(cd "$GIQAPSUN_LIB_DIR" && pwd)
export GIQAPSUN_LIB_DIR
