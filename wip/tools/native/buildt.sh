#!/bin/bash
cd /work/prof; clang=/opt/rattle/toolchain/bin/clang
$clang --target=x86_64-unknown-linux-gnu --sysroot=/opt/rattle/toolchain -march=x86-64 -mllvm -no-trap-after-noreturn -ffunction-sections -fdata-sections -mllvm -trap-unreachable -mllvm -no-x86-call-frame-opt --no-default-config -no-canonical-prefixes -fintegrated-cc1 -fno-crash-diagnostics -c -x ir $1.ll -o $2.o -fPIE -O3 -mllvm -inline-threshold=$3
/opt/rattle/bin/rattle-link --target x86_64-unknown-linux-gnu --toolchain /opt/rattle/toolchain -o $2 $2.o /opt/rattle/c/libos_c.a /opt/rattle/c/liblibc_c.a >/dev/null
