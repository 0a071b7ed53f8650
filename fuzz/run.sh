#!/usr/bin/env bash
# Fuzzes the reading calls of the C library: fuzz/run.sh SECONDS PROCESSES. What it makes is in
# target/fuzz.
set -euo pipefail
cd "$(dirname "$0")/.."
seconds=$1 processes=$2
out=target/fuzz
library=target/libnuldrafon.a
flags="-std=c11 -O1 -g -Wall -Wextra -Wshadow -Wconversion -Werror -Iinclude -Ifuzz"
sanitize="-fsanitize=fuzzer,address"

make --no-print-directory lib
mkdir -p "$out/corpus"
probe='int LLVMFuzzerTestOneInput(const char *d, long n) { return d == 0 && n > 0; }'
if ! clang -x c $sanitize - -o "$out/probe" <<<"$probe" 2>"$out/probe.log"; then
    echo "the fuzzer was not run: clang with its libFuzzer and AddressSanitizer is not there"
    exit 0
fi
clang $flags -fsanitize=address -c rust/bench/lookup3.c -o "$out/lookup3.o"
clang $flags $sanitize fuzz/readers.c fuzz/shadow.c fuzz/lent.c "$out/lookup3.o" $library \
    -o "$out/readers"
clang $flags fuzz/seeds.c $library -o "$out/seeds"
"$out/seeds" "$out/corpus"

# Each process by its own seed; they share what they find.
ids=()
for ((i = 0; i < processes; i++)); do
    seed=$((RANDOM * 32768 + RANDOM + 1))
    echo "fuzzing from seed $seed for $seconds seconds"
    "$out/readers" -seed=$seed -max_total_time="$seconds" -max_len=4172 -timeout=20 \
        -use_value_profile=1 -artifact_prefix="$out/" "$out/corpus" >"$out/$i.log" 2>&1 &
    ids+=($!)
done
status=0
for _ in "${ids[@]}"; do
    if ! wait -n; then
        status=1
        kill "${ids[@]}" 2>/dev/null || true
    fi
done
for ((i = 0; i < processes; i++)); do
    grep -hE '^(agreed|header reads|collectings|looks|finds|Done|.*(differ:|ERROR:|SUMMARY:|Test unit written))' \
        "$out/$i.log" || true
done
if [ "$status" -ne 0 ]; then
    echo "the fuzzer stopped: give $out/readers the unit that was written, to repeat it"
fi
exit "$status"
