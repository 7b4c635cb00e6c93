#!/bin/bash
# bundle.sh: gathers all drafts into /work/main/next-drafts/stack7.bundle (base: main)
cd /tmp/w/stack || exit 1
git checkout -q --detach
git fetch -q /work/main +main:landed
heads="q20 s7 s6 j8 j9 j11 j13"
true
git bundle create -q /work/main/next-drafts/stack7.bundle ^landed $heads 2>&1 | tail -1
git bundle list-heads /work/main/next-drafts/stack7.bundle | cut -c1-60; ls -la /work/main/next-drafts/stack7.bundle
