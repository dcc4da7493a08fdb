#!/usr/bin/env bash
# Mutated jobs from C, with sanitizers on the C side: fuzz.sh [COUNT [SEED]]
set -euo pipefail
cd "$(dirname "$0")/.."

c/build.sh
mkdir -p target/c
gcc -std=c11 -D_DEFAULT_SOURCE -Wall -Wextra -Werror -g -O1 -fsanitize=address,undefined -fno-sanitize-recover=all \
    -o target/c/fuzz c/fuzz.c target/staticlib/libjobs.a
cd target/c
./fuzz "${1:-300000}" "${2:-1}" ../../crates/job_trials/data/*.job
