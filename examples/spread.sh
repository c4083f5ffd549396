#!/usr/bin/env bash
# Plans a plant on several machines: rounds of `resume`, each at a share of what is open, and `merge`, until the plant is settled or the
# rounds are over.
#
#   examples/spread.sh [--shares N] [--rounds N] [--budget N] [--hosts ONE,TWO.. | --slurm] PLANT FOLDER
#
# The shares run by GNU parallel: over ssh on the hosts, of which `:` is this machine, else all on this one. With --slurm they are the
# tasks of an array job, and FOLDER is one that all nodes see. The budget is that of the first log; each share has three times as many
# boxes in the first round, and three times those of the round before in each later one, 100000 at most. STN says what the program is
# called, there too (stn). FOLDER gets the last log (last.log), its plan (plan), and a line for each round (rounds).
set -euo pipefail

shares=4 rounds=10 budget=100 hosts="" slurm=""
stn="${STN:-stn}"

usage() {
    sed -n '2,11s/^# \{0,3\}//p' "$0" >&2
    exit 2
}

while [ $# -gt 2 ]; do
    case "$1" in
        --shares) shares="$2" ;;
        --rounds) rounds="$2" ;;
        --budget) budget="$2" ;;
        --hosts) hosts="$2" ;;
        --slurm)
            slurm=yes
            shift
            continue
            ;;
        *) usage ;;
    esac
    shift 2
done
[ $# -eq 2 ] || usage
mkdir -p "$2"
cp "$1" "$2/plant.toml"
cd "$2"

# Whether a run of `solve` or `resume` left a whole log: settled, infeasible, or spent.
well='case $? in 0 | 1 | 6) ;; *) exit 1 ;; esac'

# Goes on from last.log at each share: share.0, share.1 ..
go_on() {
    if [ -n "$slurm" ]; then
        sbatch --quiet --wait --output=/dev/null --array="0-$((shares - 1))" \
            --wrap "$stn resume plant.toml last.log $budget share.\$SLURM_ARRAY_TASK_ID \$SLURM_ARRAY_TASK_ID $shares; $well"
        return
    fi
    local over=()
    [ -z "$hosts" ] || over=(--sshlogin "$hosts" --transferfile plant.toml --transferfile last.log --return 'share.{}' --cleanup)
    seq 0 "$((shares - 1))" |
        parallel --will-cite --halt now,fail=1 "${over[@]}" "$stn resume plant.toml last.log $budget share.{} {} $shares >/dev/null; $well"
}

# Whether nothing is left open.
is_settled() {
    [[ "$1" =~ ^(\#|merged)\ (optimal|infeasible) ]]
}

"$stn" solve plant.toml "$budget" last.log >plan || eval "$well"
said="$(head -n 1 plan)"
echo "0 $said" | tee rounds
for ((round = 1; round <= rounds; round++)); do
    ! is_settled "$said" || break
    budget=$((budget < 33333 ? 3 * budget : 100000))
    go_on
    said="$("$stn" merge plant.toml share "$shares" next.log)"
    mv next.log last.log
    rm -f share.*
    echo "$round $said" | tee -a rounds
done
"$stn" plan plant.toml last.log >plan
