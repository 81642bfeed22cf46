# The copy that a repair keeps: by default FILE.before-repair, made and synced before the first store; and which file is taken for one that is made already.

kept=' is kept in file.before-repair'
fresh() { rm -rf file file.before-repair*; cp "${1:-spoilt}" file; }
fresh
try 'copy: by default' 0 "$done_line" "file: what it was$kept" hive repair file log
same 'copy: by default, the copy' file.before-repair spoilt
same 'copy: by default, the finished file' file sample
right 'copy: what comes next' grep -qF 'next: put it where it belongs, and keep its logs and the copy until Windows has started with it; to undo the repair, type: cp -- file.before-repair file' stderr
right 'copy: three lines in all' [ "$(wc -l <stderr) $(wc -l <stdout)" = '2 2' ]
eval "$(sed -n 's/.* type: //p' stderr)"
same 'copy: the line undoes it' file spoilt
try 'copy: it is there already' 0 "$done_line" "$kept" hive repair file log
right 'copy: and no other is made' [ "$(echo file.before-repair*)" = file.before-repair ]
fresh
try 'copy: clean, none is made' 0 "$clean_line" '' eval 'cp sample file && hive repair file log'
cp spoilt file
try 'copy: a dry run makes none' 0 "$(printf 'would repair 8\n%s' "$sound")" '' hive repair --dry-run file log
try 'copy: a repair that is not written makes none' 3 "$unsound" 'nothing was written' hive repair file bad-log
try 'copy: a refusal makes none' 1 'refused 22 at 0' 'too short' hive repair file short-log
right 'copy: none was made' [ ! -e file.before-repair ]
try 'copy: with --anyway one is made' 3 "$(printf 'repaired 8\nrefused 9 at 0')" "$kept" hive repair --anyway file bad-log
same 'copy: with --anyway, the copy' file.before-repair spoilt
fresh
try 'copy: none is asked for' 0 "$done_line" 'file: no copy was kept of what it was' hive repair --no-backup file log
right 'copy: none is made' [ ! -e file.before-repair ]
try 'copy: both options' 2 '' 'give one of the two' hive repair --no-backup --backup kept file log
fresh
try 'copy: json' 0 "$(printf '%s\n' '{"file":"file","answer":"repaired","pages":8,"copy":"file.before-repair"}' "$(hive check --json sample | sed s/sample/file/)")" '' hive repair --json file log

# Another file of that name: a number behind it, each asked the same.
fresh
cp log file.before-repair
try 'copy: another file of that name' 0 "$done_line" "is kept in file.before-repair2" hive repair file log
same 'copy: it is as it was' file.before-repair log
same 'copy: the second' file.before-repair2 spoilt
cp spoilt file
try 'copy: the second is there already' 0 "$done_line" "is kept in file.before-repair2" hive repair file log
right 'copy: no third' [ "$(echo file.before-repair*)" = 'file.before-repair file.before-repair2' ]

# What is no copy: one byte that the log does not hold, the base block, too long, too short, the finished hive's own, a second name of the hive, a link, a pipe, a folder.
no_copy() {
    cp spoilt file
    rm -rf file.before-repair2
    try "copy: $1 is none" 0 "$done_line" 'is kept in file.before-repair2' hive repair file log
    same "copy: $1, the copy" file.before-repair2 spoilt
    rm -rf file.before-repair
}
spoil() { cp spoilt file.before-repair && printf 'x' | dd of=file.before-repair bs=1 seek="$1" conv=notrunc 2>/dev/null; }
fresh
spoil $((4096 + 512 * 5 + 7)) && no_copy 'a byte that the log does not hold'
spoil 100 && no_copy 'another base block'
spoil $((4096 + 512 * 3 + 7)) && no_copy 'a page of the log that is in neither'
{ cat spoilt; printf x; } >file.before-repair && no_copy 'a longer file'
head -c 60000 spoilt >file.before-repair && no_copy 'a shorter file'
: >file.before-repair && no_copy 'an empty file'
cp sample file.before-repair && no_copy 'the finished hive'
cp spoilt file && ln file file.before-repair
cp file file.kept && try 'copy: a second name of the hive is none' 0 "$done_line" 'is kept in file.before-repair2' hive repair file log
same 'copy: a second name, the copy' file.before-repair2 spoilt
rm -f file.before-repair* file
cp spoilt elsewhere && ln -s elsewhere file.before-repair && no_copy 'a link'
mkfifo file.before-repair && no_copy 'a pipe'
mkdir file.before-repair && no_copy 'a folder'
fresh
cp spoilt kept3
try 'copy: a named one that is there' 0 "$done_line" 'is kept in kept3' hive repair --backup kept3 file log
cp spoilt file
cp sample kept3
try 'copy: a named one that is another file' 2 '' 'is no copy of the hive before this repair' hive repair --backup kept3 file log
same 'copy: a named one, nothing changed' file spoilt

# Half repaired, by pages of the log: the copy of before is taken.
fresh
cp spoilt file.before-repair
dd if=sample of=file bs=512 skip=$((8 + 17)) seek=$((8 + 17)) count=1 conv=notrunc 2>/dev/null
try 'copy: of a hive that is half repaired' 0 "$done_line" "$kept" hive repair file log
right 'copy: half repaired, no other' [ "$(echo file.before-repair*)" = file.before-repair ]
same 'copy: half repaired, the finished file' file sample

# No room for it, and a folder that cannot be had.
full() { (trap '' XFSZ; ulimit -f 16; hive "$@"); }
fresh
try 'copy: no room' 2 '' 'cannot write at byte' full repair file log
right 'copy: no room, what to type' grep -qF 'hive: to repair it without a copy, type: hive repair --no-backup file log' stderr
same 'copy: no room, nothing changed' file spoilt
right 'copy: no room, nothing left' [ "$(echo file.before-repair*)" = 'file.before-repair*' ]
try 'copy: no such folder' 2 '' 'nothing was changed, for no copy of it could be kept' hive repair --backup "no such/it's" file log
right 'copy: no such folder, what to type' grep -qF 'hive: to repair it without a copy, type: hive repair --no-backup file log' stderr
cp spoilt "it's a file"
fail=1
try 'copy: a name with blanks' 2 '' 'no copy of it could be kept' eval 'HIVE_FAIL=1 hive_cut repair --grow "it'\''s a file" log'
right 'copy: a name with blanks, what to type' grep -qF "type: hive repair --no-backup --grow 'it'\\''s a file' log" stderr

# Cut after each single write and sync, and done again: one copy, of what was there before.
cut_with_copy() {
    what=$1 from=$2 finished=$3 steps=$4 k=0 status=99
    shift 4
    while [ "$status" = 99 ]; do
        k=$((k + 1)) status=0
        fresh "$from"
        HIVE_CUT=$k hive_cut "$@" >stdout 2>/dev/null || status=$?
        if [ "$status" = 99 ] && [ -s stdout ]; then
            bad "copy: $what, cut after $k" "printed: $(cat stdout)"
        fi
        if [ "$status" = 99 ] && ! cmp -s file "$from" && ! cmp -s file.before-repair "$from"; then
            bad "copy: $what, cut after $k" 'the hive was changed without a copy'
        fi
        hive "$@" >/dev/null 2>&1 || true
        same "copy: $what, cut after $k writes and syncs, then done again" file "$finished"
        same "copy: $what, cut after $k, the copy" file.before-repair "$from"
        right "copy: $what, cut after $k, no second" [ ! -e file.before-repair2 ]
    done
    right "copy: $what, cut everywhere" [ "$k" -eq "$steps" ]
}
cut_with_copy 'old log' spoilt sample 15 repair file log
cut_with_copy 'two logs' spoilt sample-10 15 repair file new-log1 new-log2
cut_with_copy 'grow' spoilt-short sample-8 24 repair --grow file new-log-grown

# The copy and its folder are on the disk before the first store; one that is there is synced again.
order_of() { rm -f trace && HIVE_TRACE=trace hive_cut repair file log >/dev/null 2>&1 && sed -n 's/^fsync.*/fsync/p; s/^\(pwrite [0-9]* [0-9]*\).*/\1/p' trace | head -n "$1" | tr '\n' ' '; }
fresh
right 'copy: written and synced first' [ "$(order_of 4)" = 'pwrite 0 69632 fsync fsync pwrite 4096 512 ' ]
cp spoilt file
right 'copy: one that is there is synced' [ "$(order_of 3)" = 'fsync fsync pwrite 4096 512 ' ]
rm -rf file.before-repair* file.kept elsewhere kept3 "it's a file"*
