#!/bin/sh
# Puts five servers under the same loads in turn, and prints the figures of the run: gmd as it is by default, gmd with one I/O thread and
# Debian's gearmand (package gearman-job-server) with one thread, and both with four. A server is labelled by its program and its threads.
# bench/load.sh [ROUNDS [LOADS [OPTIONS of load.rs]]] runs at the top of the repository, once gmd is built. bench/picture takes what it prints.
# Five rounds of all loads take some ten minutes, and one takes two.
# gmd has the C library keep memory as its package's service does, or as GLIBC_TUNABLES says, also where that is empty.
# GMD and GEARMAND name other programs, PORT the first of five ports. Figures of one run alone can be compared.
set -eu
busy=$(cut -d ' ' -f 1 /proc/loadavg)
rounds=${1:-5}
loads=${2:-memory,echo,submit,fg,many,drain,connect,large_echo,large_job,idle,echo_idle}
[ $# -lt 2 ] || shift
[ $# -lt 1 ] || shift
gmd=${GMD:-crates/gmd/out/gmd}
gearmand=${GEARMAND:-$(PATH=$PATH:/usr/sbin command -v gearmand)}
port=${PORT:-24730}
work=$(mktemp -d)
pids=
end() {
    for pid in $pids; do kill "$pid" 2>"$work/kill" || true; done
    rm -rf "$work"
}
trap end EXIT
trap 'exit 1' INT TERM
# Starts a server, and adds it to those that load is given.
servers=
serve() {
    label=$1
    shift
    "$@" --listen 127.0.0.1 --port "$port" >"$work/$label" 2>&1 &
    pids="$pids $!"
    servers="$servers $label=127.0.0.1:$port@$!"
    port=$((port + 1))
}
rustc --edition 2021 -O -o "$work/load" bench/load.rs
tunables=${GLIBC_TUNABLES-$(sed -n 's/^Environment=GLIBC_TUNABLES=//p' packaging/debian/gmd.service)}
serve gmd env GLIBC_TUNABLES="$tunables" "$gmd" --slots 1024
for threads in 1 4; do
    serve "gmd-$threads" env GLIBC_TUNABLES="$tunables" "$gmd" --slots 1024 --io-threads "$threads"
    serve "gearmand-$threads" env -u GLIBC_TUNABLES "$gearmand" --threads "$threads" --log-file none
done
sleep 1
for pid in $pids; do
    kill -0 "$pid" || { cat "$work"/g*; exit 1; }
done
# Figures that this run replaces don't make the clone another one.
commit=$(git describe --always 2>"$work/git" || echo unknown)
[ "$commit" = unknown ] || git diff --quiet HEAD -- . ':!bench/figures' || commit=$commit-dirty
echo "# $("$gmd" --version) with GLIBC_TUNABLES ${GLIBC_TUNABLES-of its service}, gearmand $("$gearmand" --version | grep -o '[0-9.]*' | head -n 1), $(nproc) processors" \
    "($(sed -n 's/^model name.*: //p' /proc/cpuinfo | head -n 1)), medians of $rounds in turn, $(date +%F), commit $commit, load average before it $busy"
printf '# load\tserver\toperations a second\tprocessor us an operation\tp50 us\tp99 us\n'
# shellcheck disable=SC2086
"$work/load" multi $servers --only "$loads" --cap 3 --rounds "$rounds" "$@"
