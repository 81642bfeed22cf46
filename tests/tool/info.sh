# What a file says of itself, of a broken hive too.

# facts LENGTH NUMBERS NAME: the lines of a base block of these tests
facts() {
    printf '%s\n' "length $1" 'version 1.5' 'type 0' 'format 1' 'clustering 1' 'root 32' 'bins size 65536' "sequence numbers $2" 'written 3433-12-31T01:46:15.2307201Z' "name $3"
}
# with_name FILE BYTES: a copy of it, called named, with these bytes from 48 on. Words that come in pairs leave the checksum as it is.
with_name() {
    cp "$1" named
    printf "$2" | dd of=named bs=1 seek=48 conv=notrunc 2>/dev/null
}

try 'info' 0 "$(facts 69632 '7 7' ''; echo "$sound")" '' hive info sample
try 'info: the smallest' 0 "$(printf 'length 8192\nversion 1.3\ntype 0\nformat 1\nclustering 1\nroot 32\nbins size 4096\nsequence numbers 7 7\nwritten 3433-12-31T01:46:15.2307201Z\nname \n%s' "$(hive check minimal)")" '' hive info minimal
try 'info: several' 0 "$(for file in sample cut; do hive info $file 2>/dev/null | sed "s/^/$file: /"; done)" 'cut: the file ends before its bins do' hive info sample cut
info_input() { hive info "$@" <sample; }
try 'info: standard input' 0 "$(facts 69632 '7 7' ''; echo "$sound")" '' info_input -
try 'info: standard input twice' 2 '' 'standard input is read once' info_input - -

# The name in it: UTF-16LE up to its end, or 32 units; what is hidden is a code.
with_name sample 'S\0Y\0S\0Y\0'
try 'info: its name' 0 "$(facts 69632 '7 7' SYSY; echo "$sound")" '' hive info named
with_name sample 'x\0y\0x\0y\0x\0y\0x\0y\0x\0y\0x\0y\0x\0y\0x\0y\0x\0y\0x\0y\0x\0y\0x\0y\0x\0y\0x\0y\0x\0y\0x\0y\0'
try 'info: a name that fills its room' 0 "$(facts 69632 '7 7' xyxyxyxyxyxyxyxyxyxyxyxyxyxyxyxy; echo "$sound")" '' hive info named
with_name sample '\\\0S\0\\\0S\0'
try 'info: a name with backslashes' 0 "$(facts 69632 '7 7' '\S\S'; echo "$sound")" '' hive info named
with_name sample '\033\0\075\330\033\0\075\330'
try 'info: no orders in a name' 0 "$(facts 69632 '7 7' '\\x1b\\ud83d\\x1b\\ud83d'; echo "$sound")" '' hive info named
base='"length":69632,"major":1,"minor":5,"type":0,"format":1,"clustering":1,"root":32,"bins_size":65536,"primary":7,"secondary":7,"written":"3433-12-31T01:46:15.2307201Z","name":'
try 'info: json of a name with halves' 0 "{\"file\":\"named\",\"answer\":\"base\",$base\"\\u001b$replaced\\u001b$replaced\",\"notation\":\"\\\\\\\\x1b\\\\\\\\ud83d\\\\\\\\x1b\\\\\\\\ud83d\",\"replaced\":true}" '' \
    eval 'hive info --json named | head -n 1'
try 'info: json' 0 "$(printf '%s\n' "{\"file\":\"sample\",\"answer\":\"base\",$base\"\"}" "$(hive check --json sample)")" '' hive info --json sample

# A broken hive: as far as it goes, and then what check says. The status is 0 where the base block was shown.
try 'info: not finished' 0 "$(facts 69632 '8 7' ''; echo 'refused 7 at 0')" 'the two sequence numbers differ' hive info spoilt
try 'info: cut' 0 "$(facts 69631 '7 7' ''; echo 'refused 6 at 0')" 'the file ends before its bins do' hive info cut
try 'info: a bad record' 0 "$(hive check bad-key 2>/dev/null)" '' eval 'hive info bad-key 2>/dev/null | tail -n 1'
try 'info: json of a refusal' 0 "$(hive check --json cut)" '' eval 'hive info --json cut | tail -n 1'
head -c 512 sample >sector
try 'info: the first sector alone' 0 "$(facts 512 '7 7' ''; echo 'refused 1 at 0')" 'fewer than 4096 bytes' hive info sector
head -c 511 sample >sector
try 'info: a byte less' 1 'refused 1 at 0' 'fewer than 4096 bytes' hive info sector
{ printf 'regF' && tail -c +5 sample; } >sector
try 'info: no base block' 1 'refused 2 at 0' 'does not start with "regf"' hive info sector
try 'info: no base block, json' 1 "$(hive check --json sector)" '' hive info --json sector
try 'info: nothing in it' 1 'refused 1 at 0' 'fewer than 4096 bytes' hive info empty
try 'info: the worst of several' 1 "$(hive info sample sector minimal 2>/dev/null)" 'does not start with "regf"' hive info sample sector minimal
try 'info: a log by itself' 0 'type 6' '' eval 'hive info new-log1 2>/dev/null | grep "^type"'
for seed in 1 2 3 4 5 6 7 8; do # 512 bytes of whatever: an answer, and no more than one status
    { printf regf && hive value sample "$print" Large - 2>/dev/null | tail -c +$((seed * 613)) | head -c 508; } >sector
    try "info: any bytes, $seed" 0 10 'fewer than 4096 bytes' eval 'hive info sector | sed "/^refused/d" | wc -l | tr -d " "'
done

# The logs beside it.
rm -rf told
mkdir told
cp spoilt told/S
cp new-log1 told/S.LOG1
cp new-log2 told/S.LOG2
one='length 8704 type 6 entries 1 first 7 last 7 bins 65536' two='length 10752 type 6 entries 3 first 8 last 10 bins 65536'
try 'info: logs' 0 "$(facts 69632 '8 7' ''; printf '%s\n' "log told/S.LOG1 $one" "log told/S.LOG2 $two" 'refused 7 at 0')" 'as they would repair it, type: hive check --logs told/S' hive info told/S
try 'info: logs, json' 0 "$(printf '{"file":"told/S","answer":"log","log":"told/S.LOG%s","length":%s}\n' 1 '8704,"type":6,"entries":1,"first":7,"last":7,"bins":65536' 2 '10752,"type":6,"entries":3,"first":8,"last":10,"bins":65536')" '' \
    eval 'hive info --json told/S | sed -n 2,3p'
cp short-log told/S.LOG1
: >told/S.LOG2
cp log told/S.LOG
try 'info: a log that is refused, and an empty one' 0 "log told/S.LOG1 length $(wc -c <short-log) refused 22" 'told/S.LOG1: the log is too short for its bitmap or its pages, or none of its entries counts (see: hive explain 22)' eval 'hive info told/S | grep "^log"'
right 'info: the empty one is told' grep -qF 'told/S.LOG2: it is empty' stderr
try 'info: a log that is refused, json' 0 "{\"file\":\"told/S\",\"answer\":\"log\",\"log\":\"told/S.LOG1\",\"length\":$(wc -c <short-log),\"number\":22,\"words\":\"the log is too short for its bitmap or its pages, or none of its entries counts\"}" 'it is empty' \
    eval 'hive info --json told/S | grep S.LOG1'
rm told/S.LOG1 told/S.LOG2
try 'info: a log of the old format' 0 "log told/S.LOG length $(wc -c <log) type 1 entries 0 first 7 last 7 bins 65536" 'the two sequence' eval 'hive info told/S | grep "^log"'
cp sample told/S
try 'info: beside a clean hive too' 0 "$(facts 69632 '7 7' ''; printf '%s\n' "log told/S.LOG length $(wc -c <log) type 1 entries 0 first 7 last 7 bins 65536" "$sound")" '' hive info told/S
if has_python 'the objects of info, parsed'; then
    try 'info: each line is an object' 0 'base log accepted base refused' '' eval "hive info --json told/S named-not spoilt 2>/dev/null | grep -v trouble | python3 -c 'import json, sys; print(*(json.loads(line)[\"answer\"] for line in sys.stdin))'"
fi

try 'info: no file' 2 '' 'hive: nothing: No such file' hive info nothing
try 'info: the others all the same' 2 "$(hive info sample | sed 's/^/sample: /')" 'hive: nothing: No such file' hive info nothing sample
try 'info: a word is missing' 2 '' 'info wants FILE.., and a word is missing' hive info
try 'info: no log is given to it' 2 '' 'info takes no --logs' hive info --logs sample
info_full() { hive info sample >/dev/full; }
try 'info: standard output is full' 2 '' 'cannot write the answer' info_full
rm -f trace
traced info told/S
right 'info: it opens no file for writing' [ "$(grep -cv '^open 0 ' trace)" = 0 ]
rm -rf told named sector
