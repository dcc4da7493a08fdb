#!/usr/bin/env bash
# From the source to the output of a C program: proves and builds the archive, links run_job.c with it, and compares what the program
# prints for each example job with what should be printed.
set -euo pipefail
cd "$(dirname "$0")/.."

c/build.sh
mkdir -p target/c
gcc -std=c11 -Wall -Wextra -Werror -O2 -o target/c/run_job c/run_job.c c/memory.c target/staticlib/libjobs.a

count=0
while read -r name size; do
    status=0
    target/c/run_job "$size" < "crates/job_trials/data/$name.job" > target/c/said || status=$?
    cmp target/c/said "crates/job_trials/data/$name.out" || { echo "$name: wrong output"; exit 1; }
    fault=$(sed -n "s/^$name $size: .* fault \([0-9]*\), .*/\1/p" crates/job_trials/stdout)
    [ "$status" = "$fault" ] || { echo "$name: fault $status, expected $fault"; exit 1; }
    count=$((count + 1))
done < crates/job_trials/stdin
echo "$count jobs from C: as they should be"
