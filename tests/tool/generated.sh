# What the scripts of tools/ write, in a folder of their own, is what is stored in the repository.
mkdir -p anew/crates/hive_frames anew/crates/frame_ends/data anew/crates/hive_runs anew/crates/repair_runs
written_anew() { (cd anew && python3 -B "$top/tools/$1.py" ${2:+"$2"} >/dev/null); }
# stored FILE..: each is the stored one
stored() {
    for file in "$@"; do
        (cd anew && cmp -s "$file" "$top/$file") || { echo "$file differs"; return 1; }
    done
}
files() { (cd anew && find "$@" -type f | LC_ALL=C sort); }
right 'generated: frames.py runs' written_anew frames
right 'generated: the frames and their lines' stored $(files crates/hive_frames crates/frame_ends)
right 'generated: runs.py runs' written_anew runs
right 'generated: the larger hives and their lines' stored $(files crates/hive_runs)
right 'generated: no stored hive that no script makes' [ "$(files crates/hive_runs/data crates/frame_ends/data)" = "$(cd "$top" && find crates/hive_runs/data crates/frame_ends/data -type f | LC_ALL=C sort)" ]
right 'generated: repair_runs.py runs' written_anew repair_runs
right 'generated: the repairs and their lines' stored $(files crates/repair_runs)
right 'generated: build_cases.py runs' written_anew build_cases build_test.cases
right 'generated: the streams and their answers' cmp anew/build_test.cases "$top/tests/c/build_test.cases"
