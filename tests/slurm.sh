#!/usr/bin/env bash
# Runs strips on Slurm: brings up munge, slurmctld and slurmd of the system's packages on this machine, without systemd and
# with files of their own, runs an array of 16 strips with a join that depends on it, cancels one strip, runs it again,
# compares the joined file with that of one run, and stops what it started. It needs to be root, and takes half a minute.
#
#     usage: tests/slurm.sh PROGRAM
set -u
for word in munged slurmctld slurmd sbatch scancel scontrol; do
    if ! PATH=$PATH:/usr/sbin command -v "$word" >/dev/null; then
        echo "skipped: strips on Slurm, since there is no $word"
        exit 0
    fi
done
if [ "$(id -u)" -ne 0 ]; then
    echo 'skipped: strips on Slurm, since only root can bring it up'
    exit 0
fi
PATH=$PATH:/usr/sbin
. "$(dirname "$0")/check.sh" || exit 1
NETTLETIDE=$(realpath "$1") || exit 1
export NETTLETIDE
tools=$(realpath "$(dirname "$0")/../tools") || exit 1
room=$(mktemp -d) || exit 1
chmod 755 "$room"
started=()
stop() {
    [ ${#started[@]} -eq 0 ] || kill "${started[@]}" 2>/dev/null
    wait
    rm -rf "$room"
}
trap stop EXIT
cd "$room" || exit 1

# ---- Slurm on this machine

mkdir state spool
dd if=/dev/urandom of=munge.key bs=128 count=1 2>/dev/null
chmod 400 munge.key
munged --foreground --force --key-file="$room/munge.key" --socket="$room/munge.socket" --pid-file="$room/munged.pid" \
    --log-file="$room/munged.log" --seed-file="$room/munge.seed" >munged.txt 2>&1 &
started+=($!)
host=$(hostname -s)
port=$((20000 + $$ % 20000))
cat >slurm.conf <<CONF
ClusterName=strips
SlurmctldHost=$host(127.0.0.1)
SlurmctldPort=$port
SlurmdPort=$((port + 1))
AuthType=auth/munge
AuthInfo=socket=$room/munge.socket
CredType=cred/munge
SlurmUser=root
SlurmdUser=root
StateSaveLocation=$room/state
SlurmdSpoolDir=$room/spool
SlurmctldPidFile=$room/slurmctld.pid
SlurmdPidFile=$room/slurmd.pid
ProctrackType=proctrack/linuxproc
TaskPlugin=task/none
SelectType=select/cons_tres
SelectTypeParameters=CR_CPU
MpiDefault=none
ReturnToService=2
SlurmdParameters=config_overrides
SchedulerParameters=sched_min_interval=10000,batch_sched_delay=0
NodeName=$host NodeAddr=127.0.0.1 CPUs=$(nproc) RealMemory=1000 State=UNKNOWN
PartitionName=all Nodes=ALL Default=YES MaxTime=INFINITE State=UP
CONF
export SLURM_CONF=$room/slurm.conf
slurmctld -D -f "$room/slurm.conf" >slurmctld.txt 2>&1 &
started+=($!)
slurmd -D -f "$room/slurm.conf" -N "$host" >slurmd.txt 2>&1 &
started+=($!)

is_up() {
    local k
    for ((k = 0; k < 60; k++)); do
        [ "$(sinfo -h -o %T 2>/dev/null)" = idle ] && return
        sleep 0.5
    done
    tail -n 3 munged.txt slurmctld.txt slurmd.txt
    return 1
}
if ! is_up; then
    echo 'FAILED: Slurm did not come up'
    exit 1
fi

# ---- an array, one strip of which is cancelled

"$tools/gds" G.gds <<<'cell LEAF
boundary 1 0 0,0 90,0 45,45
box 1 0 20,60 80,260
cell TOP
aref LEAF size=3x50 0,-4000 300,-4000 0,12500'
printf '%s\n' 'unit 1000' 'top TOP' 'band 1024' 'layer A 1 0' 'grow B A 7' 'write B out.oas 1 0' >K
"$NETTLETIDE" fracture G.gds K >report || exit 1
"$tools/strips" K G.gds 16 strips >told || exit 1

# join_after JOB: joins the strips when all tasks of the job have ended with status 0, and waits for it
join_after() {
    timeout 120 sbatch --parsable --wait --dependency="afterok:$1" --kill-on-invalid-dep=yes --chdir="$room" \
        --output=join.txt --wrap="$tools/join $room/strips $room/joined.oas" >join.id 2>/dev/null
}
job=$(sbatch --parsable --hold strips/array.sbatch)
check 'an array is taken' test -n "$job"
check 'one strip is cancelled' scancel "${job}_5"
join_after "$job" &
waiting=$!
check 'the others are released' scontrol release "$job"
wait "$waiting"
check 'the join is given up' grep -q 'JobState=CANCELLED' <(scontrol -o show job "$(<join.id)")
check 'and never ran' test ! -e join.txt
check 'all other strips ended with status 0' test "$(cat strips/*/status | sort | uniq -c | tr -s ' ')" = ' 17 0'
check 'the cancelled one has no status' test ! -e strips/strip-5/status

# ---- the join names it, and it is run again

again=$("$tools/join" strips joined.oas 2>&1 | sed -n 's/^to run again: //p')
check 'the join names the one to run again' test "$again" = 5
check 'nothing was joined' test ! -e joined.oas
job=$(sbatch --parsable --array="$again" strips/array.sbatch)
check 'the join ends with status 0' join_after "$job"
check 'the joined file is that of one run' cmp joined.oas out.oas
check 'the sums are those of one run' cmp <(cut -d ' ' -f 3- join.txt) <(sed -n 's/^output out.oas //p' report)

# ---- a strip that fails

ln -sf /dev/full strips/strip-2/out0.oas
timeout 120 sbatch --wait --array=2 strips/array.sbatch >/dev/null 2>&1
check 'the status of a strip is that of its task' test $? -eq 5
check 'and Slurm tells it' grep -q 'JobState=FAILED.*ExitCode=5:0' <(scontrol -o show job | tail -n 1)

"$tools/../measure/make_layout" random 100000 strips/layout
timeout 120 sbatch --wait --array=2 --mem=8 strips/array.sbatch >/dev/null 2>&1
check 'a strip with too little memory ends with status 6' test "$? $(<strips/strip-2/status)" = '6 6'

printf '%d on Slurm passed, %d failed\n' "$passed" "$failed"
[ "$failed" -eq 0 ]
