#!/bin/bash
# alone.sh ROOT CRATE..: wall, user and system seconds of each crate's first check, with the libraries below as kept
root=$1; shift
for c in "$@"; do
  cd $root/crates/$c || continue
  rm -rf out/incremental
  s=$( { TIMEFORMAT='%R %U %S'; time timeout 400 rt check >/tmp/alone.$c.txt 2>&1; } 2>&1 )
  echo "$c $s $(grep -o 'logic=[a-z-]*' /tmp/alone.$c.txt | tail -1)"
done
