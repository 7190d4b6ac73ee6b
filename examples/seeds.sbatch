#!/bin/sh
# Improves a plan from many seeds at once, two rounds each, as a Slurm job array whose numbers are the seeds:
#
#     sbatch examples/seeds.sbatch FILE PLAN FOLDER [OPTION ..]
#     sbatch --array=0-199 examples/seeds.sbatch FILE PLAN FOLDER [OPTION ..]
#
# Each task writes FOLDER/seed-N.toml, whole or not at all, and examples/best-plan picks the best of them. An earlier one is removed first,
# unless it is PLAN itself. The options are those of `cellplan improve`, as --instance NAME. CELLPLAN names the program, else it is the
# cellplan of the path. A task ends with status 0 also where its plan is late, since that plan is its answer; it ends as cellplan does where
# there is none. The same on one machine, without Slurm:
#
#     seq 0 39 | xargs -P "$(nproc)" -I{} env SLURM_ARRAY_TASK_ID={} examples/seeds.sbatch FILE PLAN FOLDER [OPTION ..]
#
#SBATCH --job-name=cellplan-seeds
#SBATCH --array=0-39
#SBATCH --ntasks=1
#SBATCH --cpus-per-task=1
#SBATCH --mem=500M
#SBATCH --output=/dev/null
set -u
[ $# -ge 3 ] && [ -n "${SLURM_ARRAY_TASK_ID:-}" ] || { echo "usage: sbatch seeds.sbatch FILE PLAN FOLDER [OPTION ..]" >&2; exit 2; }
file=$1
plan=$2
folder=$3
case $folder in -*) folder=./$folder ;; esac
seed=$SLURM_ARRAY_TASK_ID
shift 3
mkdir -p "$folder" || exit 5
[ "$plan" -ef "$folder/seed-$seed.toml" ] || rm -f "$folder/seed-$seed.toml"
for text in "$file" "$plan"; do [ -r "$text" ] || { echo "seeds.sbatch: $text can't be read" >&2; exit 5; }; done
"${CELLPLAN:-cellplan}" improve "$file" "$plan" --rounds 2 --seed "$seed" "$@" >"$folder/seed-$seed.part"
status=$?
# status 1 is that of a late plan, and of a line that begins with the fault of a PLAN that isn't well shaped
if [ "$status" -eq 0 ] || { [ "$status" -eq 1 ] && grep -q '^order = ' "$folder/seed-$seed.part"; }; then
  mv "$folder/seed-$seed.part" "$folder/seed-$seed.toml"
else
  cat "$folder/seed-$seed.part" >&2
  rm -f "$folder/seed-$seed.part"
  exit "$status"
fi
