#!/bin/sh
#SBATCH --job-name=census
#SBATCH --output=%x-%a.log
# Edits the parts of a folder as an array of tasks; TASK.log has what each prints.
#
# usage: sbatch --array=1-N parts.slurm CSBATCH DICT IMAGE FOLDER [DECKS]     (N parts; LARGE is the folder of run-part)
set -eu
part=$(ls "$4"/*.dat | sed -n "${SLURM_ARRAY_TASK_ID}p")
exec "${LARGE:-examples/large}/run-part" "$1" "$2" "$3" "$part" ${5:+"$5"}
