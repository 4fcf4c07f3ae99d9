#!/bin/bash
# sig.sh SIGNAL PREFIX : signals rattle processes whose cwd lies under PREFIX
for p in $(pgrep -x rattle; pgrep -x rattle-link; pgrep -x clang); do c=$(readlink /proc/$p/cwd); case "$c" in $2*) kill -$1 $p;; esac; done
