#!/usr/bin/env bash
#SBATCH --job-name=save --array=0-23 --ntasks=1 --mem=2G
# Task i of an array of Slurm, from 0, saves the groups of file i of logs/. When all are done, the states are rolled up:
# sbatch --dependency=afterok:$(sbatch --parsable rollup_slurm.sh) --wrap 'rollup_tool roll "$(cat query.json)" "$(cat keys.json)" states/*'
set -euo pipefail
i=$SLURM_ARRAY_TASK_ID
files=(logs/*.csv)
mkdir -p states
"${ROLLUP_TOOL:-rollup_tool}" save "$(cat query.json)" "$((i * 100000))" "${files[i]}" > "$i.part"
mv "$i.part" "states/$i.state"
