# To be sourced from the repository's root, after bindings/library.sh: `wrong_library FOLDER` makes a libgiqapsun.a
# there that is wrong in the way that the variable WRONG names when it runs.
wrong_library() {
    local renamed=() call part
    for call in read write check best better best_by_calendar work table check_by_curve best_by_curve; do
        renamed+=(--redefine-sym "giqapsun_${call}_$layout=right_${call}")
    done
    mkdir -p "$1"
    objcopy "${renamed[@]}" "$GIQAPSUN_LIB_DIR/libgiqapsun.a" "$1/libgiqapsun.a"
    for part in wrong stages weeks curves rows; do
        gcc -std=c99 -Wall -Wextra -Werror -O1 -fPIC -Iinclude -c "tests/compare/$part.c" -o "$1/$part.o"
        ar r "$1/libgiqapsun.a" "$1/$part.o"
    done
}
