#!/bin/bash
# chain2 BRANCH..: as chain.sh, with the second at which each line came in front of it
for b in "$@"; do
  rm -rf /tmp/w/g-$b; git clone -q -b $b /tmp/w/stack /tmp/w/g-$b || exit 1
  cd /tmp/w/g-$b; S=$(date +%s)
  .ci/run 2>&1 | python3 -u -c "
import sys,time
s=time.time()
for l in sys.stdin.buffer:
    sys.stdout.write('%6.1f '%(time.time()-s)+l.decode('utf8','replace')); sys.stdout.flush()" > /tmp/w/t-$b.log; st=${PIPESTATUS[0]}
  cut -c8- /tmp/w/t-$b.log > /tmp/w/g-$b.log
  echo "$(git rev-parse --short HEAD) status $st seconds $(( $(date +%s) - S ))" >> /tmp/w/g-$b.log
  [ $st -eq 0 ] || exit 1
done
