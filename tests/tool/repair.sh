# Repair: what is written, when, and what is told.

cp spoilt file
try 'repair: dry run' 0 "$(printf 'would repair 8\n%s' "$sound")" '' hive repair --dry-run file log
same 'repair: a dry run changes nothing' file spoilt
try 'repair' 0 "$done_line" 'next: put it where it belongs' hive repair --no-backup file log
same 'repair: the finished file' file sample
try 'repair: again' 0 "$clean_line" '' hive repair --no-backup file log
try 'repair: clean, whatever the log' 0 "$clean_line" '' hive repair --backup none file minimal
try 'repair: clean, an empty log' 0 "$clean_line" '' hive repair --no-backup file empty
try 'repair: clean, dry run' 0 "$clean_line" '' hive repair --dry-run file empty
right 'repair: clean, no backup' [ ! -e none ]
same 'repair: clean, no byte changed' file sample
cp spoilt file
try 'repair: json' 0 "$(printf '%s\n' '{"file":"file","answer":"repaired","pages":8}' "$(hive check --json sample | sed s/sample/file/)")" '' hive repair --no-backup --json file log
cp spoilt file
try 'repair: a log cut short' 1 'refused 22 at 0' 'short-log: the log is too short' hive repair file short-log
try 'repair: a hive for a log' 1 'refused 21 at 0' 'sample: the start of the log' hive repair file sample
try 'repair: a log of Windows 8.1 without an entry' 1 'refused 22 at 0' 'no-entry: the log is too short for its bitmap or its pages, or none of its entries counts' hive repair file no-entry
try 'repair: an empty log' 1 'refused 21 at 0' 'empty: the start of the log' hive repair file empty
same 'repair: a refusal changes nothing' file spoilt

# A log whose pages hold a broken tree.
try 'repair: not sound, dry run' 3 "$unsound" 'the header of a bin is wrong' hive repair --dry-run --anyway file bad-log
try 'repair: not sound' 3 "$unsound" 'nothing was written: the repaired hive would be refused so' hive repair --backup none file bad-log
right 'repair: not sound, no backup' [ ! -e none ]
same 'repair: not sound, nothing is written' file spoilt
try 'repair: not sound, anyway' 3 "$(printf 'repaired 8\nrefused 9 at 0')" 'it was repaired all the same (--anyway)' hive repair --no-backup --anyway file bad-log
try 'repair: not sound, again' 1 "$(printf 'clean\nrefused 9 at 0')" 'the header of a bin is wrong' hive repair --no-backup file bad-log

cp spoilt file
try 'repair: with a backup' 0 "$done_line" 'next: put it where it belongs' hive repair --backup kept file log
same 'repair: the backup' kept spoilt
right 'repair: nothing beside the backup' [ "$(echo kept*)" = kept ]
cp spoilt file
cp log other
try 'repair: never over a file that is none' 2 '' 'a file of this name is there already, is no copy of the hive before this repair, and is not overwritten; give another name' hive repair --backup other file log
right 'repair: and what to do' grep -qF 'hive: to repair it without a copy, type: hive repair --no-backup file log' stderr
same 'repair: no backup, no repair' file spoilt
same 'repair: the other file is as it was' other log
try 'repair: no room for a backup' 2 '' 'nothing was changed' hive repair --backup none/kept file log
mkdir folder
try 'repair: a directory' 2 '' 'is a directory' hive repair folder log
try 'repair: no log' 2 '' 'nothing: No such file' hive repair file nothing
same 'repair: no log, nothing changed' file spoilt
try 'repair: the log is the hive' 2 '' 'file: as LOG this is FILE once more, or a copy of it: give the log that Windows keeps beside the hive' hive repair file file
try 'repair: the log is a copy of the hive' 2 '' 'spoilt: as LOG this is FILE once more' hive repair file spoilt
try 'repair: the log is the hive, by a link' 2 '' 'hard: as LOG this is FILE once more' eval 'ln file hard && hive repair file hard'
try 'repair: the second log is the hive' 2 '' 'file: as LOG this is FILE once more' hive repair file new-log1 file
try 'repair: the log is the hive, which is clean' 2 '' 'sample: as LOG this is FILE once more' hive repair --dry-run sample sample
try 'repair: the log is the hive, json' 2 '{"file":"file","answer":"trouble","words":"as LOG this is FILE once more, or a copy of it: give the log that Windows keeps beside the hive, as FILE.LOG, FILE.LOG1 or FILE.LOG2"}' \
    'once more' hive repair --json file file
rm -f hard
for kind in log new-log; do
    cp $kind swapped
    try "repair: exchanged, $kind" 2 '' 'swapped: this is a log, and what is given as LOG is a hive: exchange the two' hive repair swapped file
    same "repair: exchanged, $kind is as it was" swapped $kind
done
try 'repair: exchanged, with two logs' 2 '' 'new-log1: this is a log, and what is given as LOG is a hive' hive repair new-log1 new-log2 file
try 'repair: two empty files' 1 'refused 1 at 0' 'empty: the hive has fewer than 4096 bytes' hive repair empty empty
same 'repair: exchanged, the hive is as it was' file spoilt

# A pipe is not waited for: neither at its other end, nor for what comes out of it.
mkfifo fifo
soon() { timeout 10 $loader "$out/hive" "$@"; }
try 'repair: a pipe by its name' 2 '' 'fifo: it is a pipe or a terminal; repair wants files that stay' soon repair fifo log
try 'repair: a pipe by its name, dry run' 2 '' 'fifo: it is a pipe or a terminal; repair wants files that stay' soon repair --dry-run fifo log
try 'repair: a pipe for a log' 2 '' 'fifo: it is a pipe or a terminal; repair wants files that stay' soon repair file fifo
try 'repair: a pipe for a log, dry run' 2 '' 'fifo: it is a pipe or a terminal; repair wants files that stay' soon repair --dry-run file fifo
try 'repair: a pipe for the second log' 2 '' 'fifo: it is a pipe or a terminal; repair wants files that stay' soon repair file new-log1 fifo
try 'repair: a pipe for a backup' 2 '' 'fifo: a file of this name is there already' soon repair --backup fifo file log
try 'repair: a backup to standard output' 2 '' '--backup wants the name of a new file, and - is none' hive repair --backup - file log
right 'repair: no file is called -' [ ! -e ./- ]
same 'repair: and nothing was changed' file spoilt

# Pages, fsync, closing sector, fsync; and with a backup that first, synced with its folder.
stores() { sed -n 's/^fsync.*/fsync/p; s/^\(pwrite [0-9]* [0-9]*\).*/\1/p' trace; }
rm -f trace
HIVE_TRACE=trace hive_cut repair --backup kept2 file log >/dev/null
{
    echo "pwrite 0 69632"
    echo fsync
    echo fsync
    for page in 0 3 4 17 30 31 64 127; do echo "pwrite $((4096 + 512 * page)) 512"; done
    echo fsync
    echo 'pwrite 0 512'
    echo fsync
} >order
stores >order.traced
same 'repair: the order of writes and syncs' order.traced order

# What looks clean is stored and synced again, for the run before may have been cut.
rm -f trace
HIVE_TRACE=trace hive_cut repair --no-backup file log >/dev/null
right 'repair: clean is synced before it is told' [ "$(stores | tr '\n' ' ')" = 'pwrite 0 512 fsync ' ]
same 'repair: clean, each byte as it was' file sample

cp spoilt file
try 'repair: a locked file' 2 '' 'another program has locked it' run "$out/hold" file $loader "$out/hive" repair file log
same 'repair: a locked file is not changed' file spoilt
