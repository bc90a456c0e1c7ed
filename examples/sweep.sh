#!/bin/sh
#SBATCH --array=1-5 --time=10 --cpus-per-task=1
procs=$(echo 64 96 128 192 256 | cut -d' ' -f"$SLURM_ARRAY_TASK_ID")
python3 -m easybook sweep "$1" --procs "$procs" --factor 500,1000 --csv > "part-$SLURM_ARRAY_TASK_ID.csv"
