#!/bin/sh
#SBATCH --ntasks=1
#SBATCH --mem=200M
# One task of a Slurm array: it covers and judges its share of the jobs of a folder. The program has to be built before, and
# the folder to be seen by all nodes. Submit it in the root of the repository; when all tasks have ended, run the summary.
# usage: sbatch --array=1-100 tools/many-jobs/slurm.sh FOLDER      MCB: the program (default: the script ./mcb of the repository)
tools=$SLURM_SUBMIT_DIR/tools/many-jobs
MCB=$(realpath -- "${MCB:-$tools/../../mcb}") || exit 1
export MCB
cd -- "$1" || exit 1
failed=0
for job in $(find . -name '*.job' | LC_ALL=C sort |
    awk -v task="$SLURM_ARRAY_TASK_ID" -v tasks="$SLURM_ARRAY_TASK_COUNT" 'NR % tasks == task % tasks'); do
    "$tools/cover.sh" "$job" && "$tools/judge.sh" "${job%.job}.cover" || failed=1
done
exit "$failed"
