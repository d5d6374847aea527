#!/usr/bin/env bash
# fuzz/run.sh SECONDS: builds the fuzz target against libgiqapsun.a and the independent scheduler of tests/oracle, and
# runs it for so long, beginning with the files of cases/, those of the older forms too. Installs clang and its fuzzer
# library from Debian's packages if they are missing. The library is that in the folder GIQAPSUN_LIB_DIR, or else in
# target/staticlib. Inputs that were kept, and one that made a difference, are in target/fuzz. Not in the gate.
set -eu
cd "$(dirname "$0")/.."
if [[ ! ${1:-} =~ ^[1-9][0-9]*$ ]]; then
    echo "usage: fuzz/run.sh SECONDS" >&2
    exit 2
fi
seconds=$1
. bindings/library.sh
folder=$PWD/target/fuzz
mkdir -p "$folder/corpus" "$folder/seeds"

fuzzer_is_missing() {
    ! echo 'int LLVMFuzzerTestOneInput(const char *d, unsigned long n) { return d == 0 && n; }' |
        clang -x c - -fsanitize=fuzzer,address -o "$folder/trial" 2>"$folder/trial.log"
}

if fuzzer_is_missing; then
    quietly apt-update apt-get update
    quietly apt-install apt-get install -y --no-install-recommends clang libclang-rt-14-dev
fi
quietly fuzz-oracle cargo rustc --release --offline --locked --lib --crate-type staticlib \
    --manifest-path tests/oracle/Cargo.toml --target-dir "$folder/oracle"
quietly fuzz-target clang -std=c99 -g -O1 -Wall -Wextra -Werror -fsanitize=fuzzer,address,undefined \
    -fno-sanitize-recover=all -Iinclude fuzz/fuzz.c "$GIQAPSUN_LIB_DIR/libgiqapsun.a" \
    "$folder/oracle/release/liboracle.a" -lpthread -ldl -lm -o "$folder/fuzz"
cp cases/*.case "$folder/seeds/"
for older in cases/old/*.case cases/old/form2/*.case; do
    name=${older#cases/old/}
    cp "$older" "$folder/seeds/old-${name//\//-}"
done

# a run starts from the seeds and from what earlier runs kept
status=0
"$folder/fuzz" -max_total_time="$seconds" -max_len=1024 -timeout=60 -print_final_stats=1 -verbosity=1 \
    -artifact_prefix="$folder/" "$folder/corpus" "$folder/seeds" >"$folder/log" 2>&1 || status=$?
if [ $status -ne 0 ]; then
    tail -n 40 "$folder/log"
    input=$(sed -n 's/.*Test unit written to //p' "$folder/log" | tail -n 1)
    failed=$(grep '^fuzz/fuzz.c:' "$folder/log" | tail -n 1)
    echo "fuzz: again: $folder/fuzz $input" >&2
    echo "fuzz: ${failed:-no test failed, and the target ended with status $status}" >&2
    exit 1
fi
executions=$(sed -n 's/^stat::number_of_executed_units: *//p' "$folder/log")
echo "fuzz: $executions executions in $seconds seconds, no difference"
grep -E '^(files|pairs|calendars|stages|weeks|curves|forecasts): ' "$folder/log"
