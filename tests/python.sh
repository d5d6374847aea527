# To be sourced from the repository's root. python_tests NAME runs the Python tests of tests/NAME and sets `count` to
# how many there are; where one fails, or there is none, it says so and leaves with status 1. No file is left behind.
export PYTHONDONTWRITEBYTECODE=1

python_tests() {
    local said
    if ! said=$(python3 -m unittest discover --start-directory "tests/$1" 2>&1); then
        echo "$said"
        exit 1
    fi
    count=$(sed -n 's/^Ran \([0-9]*\) tests\{0,1\} in .*/\1/p' <<<"$said")
    if [ "$count" -eq 0 ]; then
        echo "$1: no test was run" >&2
        exit 1
    fi
}
