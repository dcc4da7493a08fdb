#!/bin/sh
# Runs a router on random jobs and checks every output by tools/job_reference.py.
#
#     tools/check_router.sh ROUTER [COUNT [SEED]]
#
# ROUTER reads a job from standard input and prints its output. COUNT is 200 and SEED is 1 if they are not told. The exit status is 0
# if all outputs are allowed. At the first that is not, the job's file is named and kept, and the exit status is 1.

if [ $# -lt 1 ] || [ $# -gt 3 ]; then
    echo "usage: $0 ROUTER [COUNT [SEED]]" >&2
    exit 2
fi
router=$1
count=${2:-200}
seed=${3:-1}
reference=$(dirname "$0")/job_reference.py

case $router in
    */*) ;;
    *) router=./$router ;;
esac
if [ ! -x "$router" ]; then
    echo "$router cannot be run" >&2
    exit 2
fi

jobs=$(mktemp -d) || exit 2
python3 "$reference" random "$seed" "$count" "$jobs" || exit 2

for job in "$jobs"/*.job; do
    timeout 60 "$router" < "$job" > "${job%.job}.out"
    status=$?
    if [ $status -ge 124 ]; then
        echo "$job: the router ended with status $status"
        exit 1
    fi
done

if python3 "$reference" check-dir "$jobs"; then
    rm -r "$jobs"
else
    exit 1
fi
