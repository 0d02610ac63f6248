#!/bin/sh
# Slurm makes the trial on some node. The folder must be one that all nodes see; Slurm's own failures have status 1, as a No has.
# shellcheck disable=SC2086 # SRUN may be several words
test=crash.sh
for _ in 1 2 3; do
    case $(timeout 600 ${SRUN:-srun} --quiet --ntasks=1 --cpus-per-task=1 --time=2 --chdir="$PWD" \
        sh -c "timeout 60 ../$test >out.txt 2>&1; echo answer \$?") in
    'answer 0') exit 0 ;; 'answer 126' | 'answer 127') exit 127 ;; 'answer '*) exit 1 ;; esac # else no answer came back
done
exit 127 # three times none: the test has failed, and the run ends with status 8
