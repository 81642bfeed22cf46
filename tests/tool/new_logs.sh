# Repair with logs of Windows 8.1 and later: one, two that are one, two of which one fits; a hive that has to grow; and runs that are cut.

try 'new log: explain 22' 0 "22: the log is too short for its bitmap or its pages, or none of its entries counts. An old-format log was cut off: copy it again. Of a log of Windows 8.1 or later the first entry is torn, has a wrong hash or another number than the log, or its pages cannot lie where it says. If there is another log beside the hive, hive repair FILE asks both; else take the hive and its logs anew, all at one moment." '' hive explain 22
cp spoilt file
try 'new log: dry run' 0 "$(printf 'would repair 8\n%s' "$sound")" '' hive repair --dry-run file new-log
same 'new log: a dry run changes nothing' file spoilt
try 'new log: repair' 0 "$done_line" 'next: put it where it belongs' hive repair --no-backup file new-log
same 'new log: the finished file' file sample-10
try 'new log: again' 0 "$clean_line" '' hive repair --no-backup file new-log
same 'new log: clean, no byte changed' file sample-10
cp spoilt file
try 'new log: json' 0 "$(printf '%s\n' '{"file":"file","answer":"repaired","pages":8}' "$(hive check --json sample | sed s/sample/file/)")" '' hive repair --no-backup --json file new-log

# Two logs, in either order.
for logs in 'new-log1 new-log2' 'new-log2 new-log1'; do
    cp spoilt file
    try "new logs: $logs" 0 "$done_line" 'next: put it where it belongs' hive repair --no-backup file $logs
    same "new logs: $logs, the finished file" file sample-10
done
cp spoilt file
try 'new logs: the second alone' 1 'refused 25 at 0' 'new-log2: the time stamps or the numbers of hive and log differ' hive repair file new-log2
same 'new logs: the second alone changes nothing' file spoilt
cp spoilt-8 file
try 'new logs: the hive holds the first already' 0 "$done_line" 'new-log2: this log alone fits the hive, and the other is not used' hive repair --no-backup file new-log1 new-log2
same 'new logs: the hive holds the first already, the finished file' file sample-10
cp spoilt file
unsound_first=$(hive repair --dry-run file new-log1 2>/dev/null || true)
try 'new logs: a gap between them' 3 "$unsound_first" 'new-log1: this log alone fits the hive, and the other is not used' hive repair --dry-run file new-log-gap new-log1
same 'new logs: a gap, nothing written' file spoilt
try 'new logs: one is empty' 0 "$done_line" 'empty: it is empty, and passed over' hive repair --no-backup file empty new-log
same 'new logs: one is empty, the finished file' file sample-10
cp spoilt file
try 'new logs: one of each format' 0 "$done_line" 'this log alone fits the hive' hive repair --no-backup file log new-log-gap
same 'new logs: one of each format, the finished file' file sample
cp spoilt-8 file
try 'new logs: none fits' 1 'refused 25 at 0' 'new-log-gap: the time stamps or the numbers' hive repair file new-log1 new-log-gap
try 'new logs: both are none' 1 'refused 21 at 0' 'minimal: the start of the log' hive repair file empty minimal
try 'new logs: clean' 0 "$(printf 'clean\n%s' "$(hive check sample-8)")" '' hive repair --no-backup sample-8 new-log1 new-log2
try 'new logs: three' 2 '' 'there are two logs at most, and "log" is the third that has bytes' hive repair file new-log1 new-log2 log
try 'new logs: no pipe' 2 '' 'not standard input' hive repair file new-log1 -

# A tree that is not sound.
cp spoilt file
try 'new log: not sound' 3 "$unsound" 'nothing was written: the repaired hive would be refused so' hive repair --no-backup file new-log-bad
same 'new log: not sound, nothing is written' file spoilt
try 'new log: not sound, anyway' 3 "$(printf 'repaired 8\nrefused 9 at 0')" 'it was repaired all the same (--anyway)' hive repair --no-backup --anyway file new-log-bad

# A hive that is shorter than its log wants it.
cp spoilt-short file
wants=': it has 65536 bytes and needs 69632; --grow lengthens it with zeros'
try 'grow: not asked for' 1 'refused 24 at 0' "file: the hive is shorter than the log says$wants" hive repair file new-log-grown
try 'grow: check' 1 'refused 24 at 0' "$wants" hive check --log new-log-grown file
try 'grow: check, lengthened in memory' 0 "$(hive check sample)" '' hive check --grow --log new-log-grown file
grown_line=$(printf 'repaired 15 lengthened 69632\n%s' "$sound")
try 'grow: dry run' 0 "$(printf 'would repair 15 lengthened 69632\n%s' "$sound")" '' hive repair --dry-run --grow file new-log-grown
same 'grow: nothing is written for that' file spoilt-short
for grow in '' --grow; do
    try "grow: a log of another state $grow" 1 'refused 24 at 0' 'file: the hive is shorter than the log says, and would not fit it if it were longer: this is another log' hive repair $grow file new-log-gap
done
same 'grow: nothing is written for a refusal' file spoilt-short
try 'grow: without a log' 2 '' '--grow goes with --log' hive check --grow sample
rm -f trace
HIVE_TRACE=trace hive_cut repair --no-backup --grow file new-log-grown >stdout
right 'grow: what is said' [ "$(cat stdout)" = "$grown_line" ]
same 'grow: the finished file' file sample-8
{
    echo 'ftruncate 69632'
    echo fsync
    for page in 0 3 4 17 30 31 64 120 121 122 123 124 125 126 127; do echo "pwrite $((4096 + 512 * page)) 512"; done
    echo fsync
    echo 'pwrite 0 512'
    echo fsync
} >order
sed -n 's/^fsync.*/fsync/p; s/^\(pwrite [0-9]* [0-9]*\).*/\1/p; s/^\(ftruncate [0-9]*\).*/\1/p' trace >order.traced
same 'grow: lengthened and synced before the first page' order.traced order

# cut_everywhere NAME FROM FINISHED STEPS COMMAND..: cut after each single write or sync, and done again.
cut_everywhere() {
    what=$1 from=$2 finished=$3 steps=$4 k=0 status=99
    shift 4
    while [ "$status" = 99 ]; do
        k=$((k + 1)) status=0
        cp "$from" file
        HIVE_CUT=$k hive_cut "$@" >stdout || status=$?
        if [ "$status" = 99 ] && [ -s stdout ]; then
            bad "$what: cut after $k" "printed: $(cat stdout)"
        fi
        if [ "$k" -lt $((steps - 2)) ] && cmp -s file "$finished"; then
            bad "$what: cut after $k" 'the file looks finished'
        fi
        hive "$@" >/dev/null || true
        same "$what: cut after $k writes and syncs, then done again" file "$finished"
    done
    right "$what: cut everywhere" [ "$k" -eq "$steps" ]
}
cut_everywhere 'new log' spoilt sample-10 12 repair --no-backup file new-log
cut_everywhere 'new logs' spoilt sample-10 12 repair --no-backup file new-log1 new-log2
cut_everywhere 'grow' spoilt-short sample-8 21 repair --no-backup --grow file new-log-grown

# Each page in turn is lost before the first sync, and the repair is done again.
for k in 1 2 3 4 5 6 7 8; do
    cp spoilt file
    HIVE_LOSE=$k hive_cut repair --no-backup file new-log >/dev/null || true
    try "new log: page $k lost, not accepted" 1 'refused 7 at 0' 'differ' hive check file
    hive repair --no-backup file new-log >/dev/null || true
    same "new log: page $k lost, then done again" file sample-10
done

# Lengthening, its sync, the first page, the closing sector fail.
for fail in 1 2 3 19; do
    cp spoilt-short file
    try "grow: write or sync $fail fails" 2 '' 'it may be half repaired now: keep the log, and give the same command again' failing repair --no-backup --grow file new-log-grown
    hive repair --no-backup --grow file new-log-grown >/dev/null || true
    same "grow: write or sync $fail fails, then done again" file sample-8
done
