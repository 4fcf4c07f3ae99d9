#!/bin/bash
# setup.sh: prepares /work/tc, /work/rtx and /work/prof. With them `make.sh ROOT CRATE NAME` builds a program natively WITHOUT a proof, to be
# measured before a change is proved, and for nothing else: nothing that it prints counts.
# How: `rt try` hands its module to the clang of a toolchain folder; that of /work/tc keeps a copy of the module. strip.py takes the checks of
# `rt try` out of it, and the kit's clang compiles the rest at -O3. It does some 1.4 times the instructions of the proved build.
set -eu
mkdir -p /work/rtx /work/tc/bin /work/prof /tmp/cap
cp /opt/rattle/bin/rt /opt/rattle/bin/rtlib.py /work/rtx/
sed -i 's#f"{KIT}/toolchain"#"/work/tc"#g' /work/rtx/rt /work/rtx/rtlib.py
sed -i 's#^KIT = .*#KIT = "/opt/rattle"#' /work/rtx/rtlib.py
ln -sfn /opt/rattle/toolchain/lib /work/tc/lib
for tool in ld.lld llvm-ar rattle-x64; do ln -sfn "/opt/rattle/toolchain/bin/$tool" "/work/tc/bin/$tool"; done
cat > /work/tc/bin/clang <<'S'
#!/bin/bash
for word in "$@"; do case "$word" in *.bc) [ -f "$word" ] && cp "$word" "/tmp/cap/$(date +%s%N).bc";; esac; done
exec -a "$0" /opt/rattle/toolchain/bin/clang "$@"
S
chmod +x /work/tc/bin/clang
cp "$(dirname "$0")"/*.py "$(dirname "$0")"/*.sh /work/prof/
