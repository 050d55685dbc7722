#!/bin/sh
# Runs the job array of docs/COLLECTIONS.md for real, on one node: munged, slurmctld and slurmd are started here, as root, and ended. Skips
# with a word where they are not installed, or do not start. SMTCHECK names the program; without it, that which `rt ci` has built.
set -e
cd "$(dirname "$0")/.."
top=$PWD
for tool in python3 munged slurmctld slurmd sbatch; do
    PATH=$PATH:/usr/sbin command -v "$tool" >/dev/null || { echo "slurm: skipped, since there is no $tool"; exit 0; }
done
[ "$(id -u)" = 0 ] || { echo 'slurm: skipped, since the daemons want root'; exit 0; }
PATH=$PATH:/usr/sbin
work=$(mktemp -d)
chmod 755 "$work"
daemons=
finish() {
    for daemon in $daemons; do kill "$daemon" 2>/dev/null || true; done
    for daemon in $daemons; do wait "$daemon" 2>/dev/null || true; done
    rm -rf "$work"
}
trap finish EXIT
skip() {
    echo "slurm: skipped, since $1: $(tail -n 2 "$work"/*.log 2>/dev/null | tr '\n' ' ' | cut -c 1-400)"
    exit 0
}
host=$(hostname)
mkdir "$work/munge" "$work/state" "$work/spool"
chmod 700 "$work/munge"
head -c 1024 /dev/urandom >"$work/munge/key"
chmod 600 "$work/munge/key"
munged -F --force --key-file="$work/munge/key" --socket="$work/munge/socket" --pid-file="$work/munge/pid" --seed-file="$work/munge/seed" --log-file="$work/munged.log" >"$work/munged.out.log" 2>&1 &
daemons=$!
cat >"$work/slurm.conf" <<END
ClusterName=one
SlurmctldHost=$host(127.0.0.1)
SlurmUser=root
AuthType=auth/munge
AuthInfo=socket=$work/munge/socket
CredType=cred/munge
SlurmctldPort=26817
SlurmdPort=26818
StateSaveLocation=$work/state
SlurmdSpoolDir=$work/spool
SlurmctldPidFile=$work/slurmctld.pid
SlurmdPidFile=$work/slurmd.pid
ProctrackType=proctrack/linuxproc
TaskPlugin=task/none
SwitchType=switch/none
MpiDefault=none
ReturnToService=2
SchedulerType=sched/backfill
SchedulerParameters=sched_interval=2
SelectType=select/cons_tres
SelectTypeParameters=CR_Core
JobAcctGatherType=jobacct_gather/none
AccountingStorageType=accounting_storage/none
NodeName=$host NodeAddr=127.0.0.1 CPUs=$(nproc) RealMemory=16000 State=UNKNOWN
PartitionName=all Nodes=$host Default=YES MaxTime=INFINITE State=UP OverSubscribe=NO
END
export SLURM_CONF="$work/slurm.conf"
slurmctld -D -f "$work/slurm.conf" >"$work/slurmctld.log" 2>&1 &
daemons="$daemons $!"
slurmd -D -f "$work/slurm.conf" >"$work/slurmd.log" 2>&1 &
daemons="$daemons $!"
for _ in 1 2 3 4 5 6 7 8 9 10 11 12; do
    sleep 1
    sinfo -h -o %t 2>/dev/null | grep -q idle && break
done
sinfo -h -o %t 2>/dev/null | grep -q idle || skip 'the node did not come up'

# The script of the page, but for the size of its array, its memory and its solver.
mkdir "$work/page" "$work/bin"
ln -s "$top/collections" "$work/page/collections"
cp -r tests/collection "$work/page/scripts"
ln -s "${SMTCHECK:-$top/crates/smtcheck/out/smtcheck}" "$work/bin/smtcheck"
printf '#!/bin/sh\nexec cat "${1%%.smt2}.txt"\n' >"$work/bin/z3"
chmod +x "$work/bin/z3"
awk '/^```sh$/ { on = 1; text = ""; next } /^```$/ { if (text ~ /SBATCH/) printf "%s", text; on = 0 } on { text = text $0 "\n" }' docs/COLLECTIONS.md |
    sed 's/--array=0-99/--array=0-4/; s/tasks=100/tasks=5/; s/--mem=8G/--mem=1G/; s/--cpus-per-task=2/--cpus-per-task=1/' >"$work/page/array.sh"
cd "$work/page"
unset SMTCHECK
PATH=$work/bin:$(python3 -c 'import os, sys; print(os.path.dirname(sys.executable))'):$PATH PYTHONDONTWRITEBYTECODE=1 timeout 60 \
    sbatch --wait --output="$work/task-%a.log" array.sh >"$work/sbatch.log" 2>&1 || { echo "slurm: $(cat "$work"/sbatch.log "$work"/task-*.log "$work/slurmd.log" | tail -n 12)"; exit 1; }
status=0
collections/table.sh results >table 2>errors || status=$?
[ "$status" = 1 ] && [ "$(tail -n +2 table | cut -f 4 | LC_ALL=C sort | uniq -c | tr -s ' ' | tr '\n' ',')" = ' 1 invalid, 1 not decided, 1 script not taken, 7 valid,' ] ||
    { echo "slurm: the table: $status, $(cat table errors)"; exit 1; }
