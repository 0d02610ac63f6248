#!/usr/bin/env bash
# Reductions over a real Slurm of two nodes, beside the same one without it.
# By hand only, as root, where Debian's slurm-wlm and munge are installed: bench/slurm.sh [WORKERS] [KIND]. It starts a controller and two
# daemons of this machine on ports of their own, with their files in a folder of /tmp, and ends them. By so many standing workers (8), each
# test by examples/tests/over_srun.sh, it reduces one of two cases: `clamp`, which wants gcc 12 and clang, or `text`, a generated program by a test
# that sleeps and looks for a text. File and log have to be those of a run without Slurm, also where a node is drained or its daemon is
# killed under way (there the test may fail too, status 8, which leaves a front of the same log). After each run and after Ctrl-C no job
# may be left. After SIGKILL one that waited for its node may stay up to its time limit of two minutes: its `srun` was ended before it could
# take it back. CREDUCE=PROGRAM takes another program than the launcher at the top.
set -u
here=$(cd "$(dirname "${BASH_SOURCE[0]}")" && pwd)
workers=${1:-8}
kind=${2:-clamp}
wanted=(srun slurmctld slurmd munged)
[ "$kind" = text ] || wanted+=(gcc clang)
for tool in "${wanted[@]}"; do command -v "$tool" >/dev/null || { echo "it wants $tool"; exit 1; }; done
. "$here/reductions.sh"
begin_reductions 0
host=$(hostname -s)
export SLURM_CONF=$folder/slurm.conf

# The case: a folder with the file and the test.
mkdir case
if [ "$kind" = text ]; then
    file=f.c test=short.sh limit=(--limit 600)
    text_of 7 10 case/f.c
    printf '#!/bin/sh\nsleep 0.2\nexec grep -q "f3(" f.c\n' >case/short.sh && chmod +x case/short.sh
else
    file=thermostat.c test=gcc_differs.sh limit=()
    cp "$here"/../examples/clamp/* case
fi

# One machine, as two nodes with half of its processors each.
mkdir -p state spool.one spool.two /run/munge && chown munge:munge /run/munge
[ -S /run/munge/munge.socket.2 ] || { munged --force 2>munge.log && cp /run/munge/munged.pid munged.pid; }
half=$((($(nproc) + 1) / 2))
cat >"$SLURM_CONF" <<CONF
ClusterName=pair
SlurmctldHost=$host(127.0.0.1)
SlurmctldPort=26817
AuthType=auth/munge
SlurmUser=root
SlurmdUser=root
StateSaveLocation=$folder/state
SlurmdSpoolDir=$folder/spool.%n
SlurmctldPidFile=$folder/slurmctld.pid
SlurmdPidFile=$folder/%n.pid
SlurmctldLogFile=$folder/slurmctld.log
SlurmdLogFile=$folder/%n.log
ProctrackType=proctrack/pgid
TaskPlugin=task/none
SelectType=select/cons_tres
SelectTypeParameters=CR_CPU
SlurmdTimeout=10
ReturnToService=2
NodeName=one NodeHostname=$host NodeAddr=127.0.0.1 Port=26818 CPUs=$half State=UNKNOWN
NodeName=two NodeHostname=$host NodeAddr=127.0.0.1 Port=26819 CPUs=$half State=UNKNOWN
PartitionName=all Nodes=one,two Default=YES MaxTime=INFINITE State=UP OverSubscribe=FORCE:4
CONF
ended() { for it in one two slurmctld munged; do [ ! -s $it.pid ] || kill "$(cat $it.pid)" 2>/dev/null; done; }
trap 'cd "$folder" && ended; sleep 1; rm -rf "$folder"' EXIT
slurmctld -f "$SLURM_CONF" && sleep 2 && slurmd -N one && slurmd -N two || exit 1
for _ in $(seq 30); do [ "$(sinfo -h -N -t idle -o %N | wc -l)" = 2 ] && break; sleep 1; done
sinfo -h -N -o '%N %t'

sed "s|^test=.*|test=$test|" "$here/../examples/tests/over_srun.sh" >case/over.sh && chmod +x case/over.sh

# began PLACE WORDS..: a reduction of the case in a folder of this name, in the background, where it can be interrupted; sets its number.
began() {
    local place=$1
    shift
    rm -rf "$place" && cp -r case "$place" && cd "$place" || exit 1
    setsid env --default-signal=INT "$program" "${limit[@]}" "$@" "$file" >said 2>&1 &
    number=$!
    cd ..
}

# left WHAT: how many jobs are left three minutes later, which has to be none, and their states, or how soon none was.
left() {
    local jobs='' begun=$SECONDS
    while jobs=$(squeue -h -o '%t' | sort | uniq -c | tr -s ' \n' ' ') && [ -n "$jobs" ] && [ $((SECONDS - begun)) -lt 180 ]; do sleep 1; done
    echo "$1: ${jobs:-no} jobs left, $((SECONDS - begun)) seconds later"
}

# compared WHAT PLACE STATUS: whether it came out as without Slurm.
compared() {
    if [ "$3" = 0 ]; then
        cmp -s "alone/$file" "$2/$file" && cmp -s "alone/$file.log" "$2/$file.log" && echo "$1: alike" || echo "$1: it came out otherwise"
    else
        local rows
        rows=$(($(wc -l <"$2/$file.log") - 1))
        [ "$3" = 8 ] && cmp -s <(head -n $rows "alone/$file.log") <(head -n $rows "$2/$file.log") && echo "$1: the test failed, after $rows rows of the same log" || echo "$1: status $3: $(head -c 300 "$2/said")"
    fi
}

began alone --workers "$workers" "./$test"
wait $number || { echo "without Slurm: $(cat alone/said)"; exit 1; }
cat alone/said

began over --standing --workers "$workers" ./over.sh
wait $number
compared "over two nodes" over $?
left "over two nodes"

began stopped --standing --workers "$workers" ./over.sh
sleep 5 && kill -INT -- -$number
wait $number
left "at Ctrl-C"

began killed --standing --workers "$workers" ./over.sh
sleep 5 && kill -KILL $number
wait $number 2>/dev/null
left "at SIGKILL"

began drained --standing --workers "$workers" ./over.sh
sleep 5 && scontrol update nodename=two state=drain reason=tried
wait $number
compared "with a node drained under way" drained $?
left "with a node drained under way"
scontrol update nodename=two state=resume

began died --standing --workers "$workers" ./over.sh
sleep 5 && kill -KILL "$(cat two.pid)"
wait $number
compared "with a node's daemon killed under way" died $?
scontrol update nodename=two state=down reason=tried
left "with a node's daemon killed under way"
