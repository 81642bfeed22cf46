# Runs that are killed, writes that are lost, writes and syncs that fail; and what a terminal shows.

# Cut after each single write or sync, and done again.
k=0 status=99
while [ "$status" = 99 ]; do
    k=$((k + 1)) status=0
    cp spoilt file
    HIVE_CUT=$k hive_cut repair --no-backup file log >stdout || status=$?
    if [ "$status" = 99 ] && [ -s stdout ]; then
        bad "repair: cut after $k" "printed: $(cat stdout)"
    fi
    if [ "$k" -lt 10 ] && cmp -s file sample; then
        bad "repair: cut after $k" 'the file looks finished'
    fi
    hive repair --no-backup file log >/dev/null || true
    same "repair: cut after $k writes and syncs, then done again" file sample
done
right 'repair: cut everywhere' [ "$k" -eq 12 ]

# Each page in turn is lost before the first sync, and the repair is done again.
for k in 1 2 3 4 5 6 7 8; do
    cp spoilt file
    HIVE_LOSE=$k hive_cut repair --no-backup file log >/dev/null || true
    try "repair: page $k lost, not accepted" 1 'refused 7 at 0' 'differ' hive check file
    hive repair --no-backup file log >/dev/null || true
    same "repair: page $k lost, then done again" file sample
done

# A backup that is cut leaves another name, and the same command works.
cp spoilt file
HIVE_CUT=1 hive_cut repair --backup cut-copy file log >/dev/null || true
right 'repair: a backup that is cut has not its name' [ ! -e cut-copy ]
same 'repair: a backup that is cut, nothing changed' file spoilt
try 'repair: after a backup that was cut' 0 "$done_line" 'next: put it where it belongs' hive repair --backup cut-copy file log
same 'repair: the second backup' cut-copy spoilt
same 'repair: after the second backup' file sample

# The first page, the last, the sync, the closing sector, its sync.
failing() { HIVE_FAIL=$fail hive_cut "$@"; }
for fail in 1 8 9 10 11; do
    cp spoilt file
    try "repair: write or sync $fail fails" 2 '' 'it may be half repaired now: keep the log, and give the same command again' failing repair --no-backup file log
    hive repair --no-backup file log >/dev/null || true
    same "repair: write or sync $fail fails, then done again" file sample
done
cp sample file
fail=2
try 'repair: clean, but it cannot be synced' 2 '' 'file: cannot sync: Input/output error' failing repair --no-backup file log
right 'repair: and what to do then' grep -qF 'keep the log' stderr
cp spoilt file
fail=1
try 'repair: the backup cannot be written' 2 '' 'nothing was changed, for no copy of it could be kept' failing repair --backup no-copy file log
right 'repair: nothing is left of it' [ "$(echo no-copy*)" = 'no-copy*' ]
same 'repair: and nothing was changed' file spoilt
interrupted() { HIVE_INTERRUPT=1 hive_cut "$@"; }
try 'repair: a sync that is interrupted is tried again' 0 "$done_line" 'next: put it where it belongs' interrupted repair --no-backup file log

# From one second on, and gone when it is done.
cp spoilt file
slow() { HIVE_TERMINAL=1 HIVE_SLOW=1 hive_cut "$@"; }
try 'progress: a slow repair' 0 "$done_line" 'storing page 8 of 8, 1 s' slow repair --no-backup file log
right 'progress: the line is cleared before anything else is told' grep -qF "$(printf '\r\033[Khive: file: no copy')" stderr
cp spoilt file
try 'progress: none in less than a second' 0 "$done_line" 'next: put it where it belongs' on_terminal repair --no-backup file log
