#!/usr/bin/env bash
# Records the pages of pages.txt on this machine (:) and on build2 by GNU parallel, and makes one list. docs/ci.md
mkdir traces
parallel --sshlogin 2/:,4/build2 --return traces/{#}.trace --return traces/{#}.names.json --cleanup \
  'mkdir -p traces; er_record {} traces/{#}.trace' :::: pages.txt
er_suite traces --known races.known --junit races.xml
