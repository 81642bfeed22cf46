# A dirty hive without its log, as it is: what is there is read, what is missing is told each time, and nothing is written.

missing='it is dirty and read as it is, and what its log held is missing'
look_for='no log lies beside it: look for FILE.LOG1 and FILE.LOG2, or FILE.LOG, where it was taken from, copy them beside it, and type'
as_dirty=$(echo "$sound" | sed 's/^accepted/dirty/')
# flip FILE BITS AT..: the bits of these bytes; flipped in a word and in the checksum, the base block stays one
flip() {
    of=$1 bits=$2
    shift 2
    for at in "$@"; do
        printf "\\$(printf %03o $(($(od -An -tu1 -j $at -N 1 "$of") ^ bits)))" | dd of="$of" bs=1 seek=$at conv=notrunc 2>/dev/null
    done
}
# soiled FILE DIRTY: a copy whose first sequence number is another
soiled() { cp "$1" "$2" && flip "$2" 15 4 508; }
# warned NAME LINE..: that these are all lines on standard error
warned() {
    name=$1
    shift
    printf 'hive: %s\n' "$@" >wanted
    same "as it is: $name" stderr wanted
}
rm -rf lost
mkdir lost
cp dirty lost/S
cp dirty dirty.before

# The check: never accepted, and 1.
try 'as it is: refused without it' 1 'refused 7 at 0' 'the two sequence numbers differ' hive check lost/S
warned '7 names it' 'lost/S: the two sequence numbers differ: give its log with --log, or repair it (see: hive explain 7)' "$look_for: hive repair lost/S" \
    'where they are lost, to read it as it is, without what they held, type: hive check --as-is lost/S'
try 'as it is: 7 of another verb' 1 'refused 7 at 0' 'differ' hive value --nth 1 lost/S "$print" Big
eval "$(sed -n 's/^hive: where they are lost.* type: //p' stderr)" >stdout 2>/dev/null
right 'as it is: the line of 7 reads' [ "$(cat stdout)" = '258 (0x102)' ]
try 'as it is: 7, --logs and --grow, no log' 1 'refused 7 at 0' 'without what they held, type: hive ls --as-is lost/S' hive ls --grow --logs lost/S
try 'as it is: explain 7' 0 "$(hive explain 7 | grep -F 'hive check --as-is FILE, and --as-is with the others that read')" '' hive explain 7
try 'as it is: check' 1 "$as_dirty" "$missing" hive check --as-is lost/S
right 'as it is: check says dirty' grep -qx 'dirty bins [0-9]* keys [0-9]* values [0-9]* used [0-9]* free [0-9]*' stdout
warned 'check, the warning' "lost/S: warning: $missing; no log lies beside it"
try 'as it is: several' 1 "$(printf '%s\n' "sample: $sound" "lost/S: $as_dirty" "minimal: $(hive check minimal)")" "lost/S: warning: $missing" hive check --as-is sample lost/S minimal
right 'as it is: several, one warning' [ "$(wc -l <stderr)" -eq 1 ]

# Each verb reads what it reads of the clean hive.
soiled left left-dirty
soiled reg reg-dirty
soiled names names-dirty
try 'as it is: key' 0 "$(hive key -l sample "$print")" "dirty: warning: $missing; no log lies beside it" hive key -l --as-is dirty "$print"
try 'as it is: ls' 0 "$(hive ls -l sample)" "$missing" hive ls --as-is -l dirty
try 'as it is: keys' 0 "$(hive keys sample)" "$missing" hive keys dirty --as-is
try 'as it is: keys below' 0 "$(hive keys sample ControlSet001)" "$missing" hive keys dirty --as-is ControlSet001
try 'as it is: value' 0 '258 (0x102)' "$missing" hive value --as-is dirty "$print" Big
try 'as it is: value, by number' 0 "$(hive value --nth 2 names '' 'a\x0ab')" "$missing" hive value --as-is --nth 2 names-dirty '' 'a\x0ab'
rm -f data frames frames.wanted
hive value sample "$print" Large data
try 'as it is: value, raw' 0 '' "$missing" eval 'hive value --as-is dirty "$print" Large - >raw'
same 'as it is: value, the bytes' raw data
hive export sample frames.wanted >stdout
try 'as it is: export' 0 "$(cat stdout)" "$missing" hive export --as-is dirty frames
same 'as it is: export, the frames' frames frames.wanted
try 'as it is: export, to standard output' 0 '' "$missing" eval 'hive export --as-is dirty >frames'
same 'as it is: export, the frames of standard output' frames frames.wanted
try 'as it is: reg' 0 "$(hive reg --utf8 sample)" "$missing" hive reg --utf8 --as-is dirty
status=0
hive reg --utf8 reg >wanted 2>/dev/null || status=$?
try 'as it is: reg, not all of it' "$status" "$(cat wanted)" "$missing" hive reg --utf8 --as-is reg-dirty
right 'as it is: reg, status 4' [ "$status" = 4 ]
try 'as it is: deleted' 0 "$(hive deleted left)" "$missing" hive deleted --as-is left-dirty
soiled_input() { hive "$@" <dirty; }
try 'as it is: standard input' 0 "$(hive ls sample)" "-: warning: $missing" soiled_input ls --as-is -
warned 'standard input has nothing beside it' "-: warning: $missing"
try 'as it is: standard input, 7' 1 'refused 7 at 0' 'or repair it; --as-is reads it without what its log held (see' soiled_input ls -

# A clean hive: nothing changes.
try 'as it is: clean, check' 0 "$sound" '' hive check --as-is sample
try 'as it is: clean, json' 0 "$(hive check --json sample)" '' hive check --json --as-is sample
for words in "key sample $print" 'ls sample' 'keys sample' "value sample $print Big" 'export sample' 'reg sample' 'deleted left'; do
    hive $words >wanted
    hive $words --as-is >found 2>stderr
    same "as it is: clean, ${words%% *}" found wanted
    right "as it is: clean, ${words%% *}, no warning" [ ! -s stderr ]
done

# JSON: in each object, of refusals too; and not of the next file, which is clean.
try 'as it is: json' 1 "$(hive check --json sample minimal | sed '1s/"sample","answer":"accepted"/"dirty","answer":"dirty"/; 1s/}$/,"as_is":true}/')" "dirty: warning: $missing" hive check --json --as-is dirty minimal
for words in "key $print" 'ls' 'keys' "value $print Big"; do
    verb=${words%% *} rest=${words#"$verb"}
    hive $verb --json -- sample $rest | sed 's/"file":"sample"/"file":"dirty"/; s/}$/,"as_is":true}/' >wanted
    try "as it is: json, $verb" 0 "$(cat wanted)" "$missing" hive $verb --json --as-is -- dirty $rest
done
try 'as it is: json, export' 0 "$(rm -f frames; hive export --json sample frames | sed 's/sample/dirty/; s/}$/,"as_is":true}/'; rm -f frames)" "$missing" hive export --json --as-is dirty frames
try 'as it is: json, deleted, replaced' 0 "$(hive deleted --json left | sed 's/"file":"left"/"file":"left-dirty"/; s/,"replaced":true}$/}/; s/}$/,"as_is":true}/; $s/}$/,"replaced":true}/')" "$missing" hive deleted --json --as-is left-dirty
try 'as it is: json, no such key' 1 '{"file":"dirty","answer":"refused","number":17,"place":null,"key":32,"words":"there is no such key: the root has no subkey nobody","as_is":true}' "$missing" hive key --json --as-is dirty nobody
try 'as it is: json, 7' 1 '{"file":"lost/S","answer":"refused","number":7,"place":null,"key":null,"words":"the two sequence numbers differ: give its log with --log, or repair it","type":"hive repair lost/S"}' '' hive check --json lost/S

# What else is wrong is refused as ever: 1 to 6 without a warning, the rest behind one.
for words in 'cut 6' 'empty 1' 'log 4'; do
    file=${words% *} n=${words#* }
    try "as it is: refused $n" 1 "$(hive check $file 2>/dev/null || true)" "(see: hive explain $n)" hive check --as-is $file
    right "as it is: refused $n, no warning" [ "$(grep -c 'as it is' stderr)" = 0 ]
done
cp dirty lost/T
flip lost/T 1 508
try 'as it is: a checksum' 1 'refused 3 at 0' 'the checksum of the base block is wrong' hive check --as-is lost/T
right 'as it is: a checksum, no warning' [ "$(grep -c 'as it is' stderr)" = 0 ]
soiled no-root lost/R
try 'as it is: a record' 1 'refused 12 at 32' 'a record in a cell is wrong' hive check --as-is lost/R
right 'as it is: a record, behind the warning' [ "$(head -n 1 stderr)" = "hive: lost/R: warning: $missing; no log lies beside it" ]
try 'as it is: keys, a record' 1 'refused 12 at 32' 'a record in a cell is wrong' hive keys --as-is lost/R
try 'as it is: no such key' 1 'refused 17 at 0' 'the root has no subkey nobody' hive ls --as-is dirty nobody
try 'as it is: two values of one name' 1 'refused 29 at 520' 'a key has two values of one name' hive check --as-is names-dirty
try 'as it is: no file' 2 '' 'hive: nothing: No such file' hive check --as-is nothing

# The logs beside it, by their names, and the lines that take them where they fit.
cp new-log1 lost/S.LOG1
cp new-log2 lost/S.LOG2
try 'as it is: two logs beside it' 0 '258 (0x102)' "$missing" hive value --as-is lost/S "$print" Big
warned 'two logs, the lines' "lost/S: warning: $missing; beside it: lost/S.LOG1 and lost/S.LOG2" \
    "its logs lie beside it. To read it as they would repair it, type: hive value --logs lost/S '$print' Big" 'to repair it, type: hive repair lost/S'
eval "$(sed -n 's/^hive: its logs lie beside it.* type: //p' stderr)" >stdout 2>/dev/null
right 'as it is: the line reads with the logs' [ "$(cat stdout)" = '258 (0x102)' ]
try 'as it is: two logs, json' 1 "$(hive check --json sample | sed 's/"sample","answer":"accepted"/"lost\/S","answer":"dirty"/; s/}$/,"as_is":true}/')" 'to repair it, type: hive repair lost/S' hive check --json --as-is lost/S
try 'as it is: 7 with logs beside it does not name it' 1 'refused 7 at 0' 'to repair it, type: hive repair lost/S' hive check lost/S
right 'as it is: not named' [ "$(grep -c 'as-is' stderr)" = 0 ]
rm lost/S.LOG1 lost/S.LOG2
cp torn-log2 lost/s.log
try 'as it is: a log that does not fit' 1 "$as_dirty" "$missing" hive check --as-is lost/S
warned 'a log that does not fit, its name' "lost/S: warning: $missing; beside it: lost/s.log, which does not fit it"
try 'as it is: 7 with a log that does not fit does not name it' 1 'refused 7 at 0' 'what lies beside it as its log does not fit it' hive check lost/S
right 'as it is: not named there' [ "$(grep -c 'as-is' stderr)" = 0 ]
cp spoilt-short lost/G
flip lost/G 0xf0 41 509 # its bins are 0xf000 bytes, which are there, and not 0x10000
flip lost/G 1 42 510
cp new-log-grown lost/G.LOG1
try 'as it is: a log that wants it longer' 1 'refused 9 at 0' 'to repair it, type: hive repair --grow lost/G' hive check --as-is lost/G
hidden=$(printf 'lost/a\tb')
cp dirty "$hidden"
cp log "$hidden.LOG"
try 'as it is: hidden characters' 1 "$as_dirty" "lost/a\\x09b: warning: $missing; beside it: lost/a\\x09b.LOG" hive check --as-is "$hidden"
right 'as it is: hidden characters, no line' [ "$(wc -l <stderr)" -eq 1 ]

# Wrong usage.
for words in 'check dirty' 'key dirty a' 'ls dirty' 'keys dirty' 'value dirty a b' 'export dirty' 'reg dirty' 'deleted dirty'; do
    try "as it is: ${words%% *}, with --log" 2 '' '--as-is reads FILE without its log, and --log with it: give one of the two; see: hive --help' hive $words --as-is --log log
    try "as it is: ${words%% *}, with --logs" 2 '' '--as-is reads FILE without its log, and --logs with it: give one of the two; see: hive --help' hive $words --logs --as-is
done
try 'as it is: several files, with --logs' 2 '' 'give one of the two' hive check --as-is --logs dirty sample
right 'as it is: several files, told once' [ "$(wc -l <stderr)" -eq 1 ]
try 'as it is: with --grow' 2 '' '--grow goes with --log' hive ls --as-is --grow dirty
try 'as it is: repair' 2 '' 'repair takes no --as-is' hive repair --as-is dirty log
try 'as it is: build' 2 '' 'build takes no --as-is' hive build --as-is frames made
try 'as it is: explain' 2 '' 'explain takes no --as-is' hive explain --as-is 7

# Nothing is opened for writing, and nothing is written.
rm -f trace
for words in 'check dirty' "key dirty $print" 'ls dirty' 'keys dirty' "value dirty $print Big" 'export dirty' 'reg dirty' 'deleted left-dirty'; do
    traced $words --as-is 2>/dev/null || true
done
right 'as it is: no file is opened for writing' [ "$(grep -c '^open 0 ' trace) $(grep -cv '^open 0 ' trace)" = '8 0' ]
same 'as it is: the file is as it was' dirty dirty.before
same 'as it is: the other is as it was' lost/S dirty.before
rm -rf lost left-dirty reg-dirty names-dirty dirty.before data raw frames frames.wanted
