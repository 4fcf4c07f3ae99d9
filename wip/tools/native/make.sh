#!/bin/bash
# make.sh ROOT CRATE NAME: /work/prof/NAME, the program of a crate, unproved (some 4 minutes on a quiet machine). For hdfs_bench the try runs
# a small workload, and its time may run out after the module is kept: that is no matter.
set -u
rm -f /tmp/cap/*.bc
cd "$1/crates/$2"; timeout 900 /work/rtx/rt try -- mkdirs 10 </dev/null >/dev/null 2>&1
cd /work/prof
cp "$(ls -S /tmp/cap/*.bc | head -1)" "$3.bc"
clang=/opt/rattle/toolchain/bin/clang
$clang --no-default-config -fintegrated-cc1 -x ir "$3.bc" -S -emit-llvm -Xclang -disable-llvm-passes -o "$3.all.ll" -O0
python3 strip.py "$3.all.ll" "$3.ll"
$clang --target=x86_64-unknown-linux-gnu --sysroot=/opt/rattle/toolchain -march=x86-64 -mllvm -no-trap-after-noreturn -ffunction-sections -fdata-sections -mllvm -trap-unreachable -mllvm -no-x86-call-frame-opt --no-default-config -no-canonical-prefixes -fintegrated-cc1 -fno-crash-diagnostics -c -x ir "$3.ll" -o "$3.o" -fPIE -O3
/opt/rattle/bin/rattle-link --target x86_64-unknown-linux-gnu --toolchain /opt/rattle/toolchain -o "$3" "$3.o" /opt/rattle/c/libos_c.a /opt/rattle/c/liblibc_c.a
