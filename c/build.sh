#!/usr/bin/env bash
# Proves the call from C and writes the archive that C programs link: target/staticlib/libjobs.a
set -euo pipefail
cd "$(dirname "$0")/.."

(cd crates/jobs_c && rt check && rt lib)
mkdir -p target/staticlib
cp crates/jobs_c/out/libjobs_c.a target/staticlib/libjobs.a
