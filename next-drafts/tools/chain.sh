#!/bin/bash
# chain BRANCH..: the gate on each branch of /tmp/w/stack in turn, from a fresh clone; stops at the first that fails
for b in "$@"; do
  rm -rf /tmp/w/g-$b; git clone -q -b $b /tmp/w/stack /tmp/w/g-$b || exit 1
  cd /tmp/w/g-$b; S=$(date +%s)
  .ci/run > /tmp/w/g-$b.log 2>&1; st=$?
  echo "$(git rev-parse --short HEAD) status $st seconds $(( $(date +%s) - S ))" >> /tmp/w/g-$b.log
  [ $st -eq 0 ] || exit 1
done
