# What a refusal ends with: the line to type next, and that it does what it says.

# advised NAME TEXT: that it stands as the end of a line
advised() { right "advice: $1" grep -qxF -- "hive: $2" stderr; }
# obey: the last line that was told to type, as a shell reads it
obey() { eval "$(sed -n 's/^hive: .*[Tt]ype: //p' stderr | tail -n 1)" >stdout 2>obeyed; }
look_for='no log lies beside it: look for FILE.LOG1 and FILE.LOG2, or FILE.LOG, where it was taken from, copy them beside it, and type'
anew='take FILE and its logs anew from where they were, all at one moment, lay them beside each other, and type'
rm -rf advice
mkdir advice
cp spoilt advice/S

# 7.
try 'advice: 7, no log' 1 'refused 7 at 0' 'differ' hive check advice/S
advised '7, no log, the line' "$look_for: hive repair advice/S"
cp torn-log2 advice/S.LOG1
try 'advice: 7, a log that does not fit' 1 'refused 7 at 0' 'differ' hive check advice/S
advised '7, a log that does not fit, the line' 'what lies beside it as its log does not fit it: take FILE and its logs anew, all at one moment, and type: hive repair advice/S'
cp new-log1 advice/S.LOG1
cp new-log2 advice/S.LOG2
try 'advice: 7, to read' 1 'refused 7 at 0' 'differ' hive value --nth 1 advice/S "$print" Big
advised '7, the line to read' "its logs lie beside it. To read it as they would repair it, type: hive value --nth 1 --logs advice/S '$print' Big"
advised '7, the line to repair' 'to repair it, type: hive repair advice/S'
eval "$(sed -n 's/.*repair it, type: \(hive value\)/\1/p' stderr)" >stdout 2>/dev/null
right 'advice: 7, the line reads' [ "$(cat stdout)" = '258 (0x102)' ]
same 'advice: 7, nothing changed' advice/S spoilt
obey
same 'advice: 7, the line repairs' advice/S sample-10
same 'advice: 7, and keeps a copy' advice/S.before-repair spoilt
cp spoilt advice/S
try 'advice: 7, json' 1 "$(printf '%s' '{"file":"advice/S","answer":"refused","number":7,"place":null,"key":null,"words":"the two sequence numbers differ: give its log with --log, or repair it","type":"hive check --json --logs advice/S"}')" '' hive check --json advice/S
from_standard() { hive check - <advice/S; }
try 'advice: 7, standard input' 1 'refused 7 at 0' 'differ' from_standard
right 'advice: 7, standard input, no line' [ "$(grep -ci 'type:' stderr)" = 0 ]
try 'advice: 7, of several' 1 "$(printf 'sample: %s\nadvice/S: refused 7 at 0' "$sound")" 'differ' hive check sample advice/S
advised '7, of several, the line' 'its logs lie beside it. To read it as they would repair it, type: hive check --logs advice/S'

# 2 and 3, only where a log would repair it.
rm -rf advice/S.*
for byte in 0 508; do
    cp spoilt advice/S
    printf '\377' | dd of=advice/S bs=1 seek=$byte conv=notrunc 2>/dev/null
    case $byte in 0) n=2 ;; *) n=3 ;; esac
    try "advice: $n, no log" 1 "refused $n at 0" 'hive: ' hive ls advice/S
    right "advice: $n, no log, no line" [ "$(grep -ci 'type:' stderr)" = 0 ]
    cp log advice/S.LOG
    try "advice: $n, a log" 1 "refused $n at 0" 'hive: ' hive ls advice/S
    advised "$n, the line to repair" 'to repair it, type: hive repair advice/S'
    obey
    same "advice: $n, the line repairs" advice/S sample
    rm -f advice/S.*
done

# 21 and 22: no log, an empty one, one that is cut; those beside it may fit.
cp spoilt advice/S
try 'advice: 21, no log' 1 'refused 21 at 0' 'advice/S: ' hive repair advice/S
advised '21, no log, the line' "$look_for: hive repair advice/S"
cp short-log advice/S.LOG
try 'advice: 22' 1 'refused 22 at 0' 'advice/S.LOG: the log is too short' hive repair advice/S advice/S.LOG
advised '22, the line' "$anew: hive repair advice/S"
cp new-log advice/S.LOG1
try 'advice: 22, another log fits' 1 'refused 22 at 0' 'advice/S.LOG: the log is too short' hive repair advice/S advice/S.LOG
advised '22, the logs beside it' 'the logs beside it fit. Type: hive repair advice/S'
try 'advice: 22, to read' 1 'refused 22 at 0' 'advice/S.LOG: the log is too short' hive keys --log advice/S.LOG advice/S
advised '22, to read, the line' 'its logs lie beside it. To read it as they would repair it, type: hive keys --logs advice/S'
try 'advice: exchanged' 2 '' 'exchange the two' hive repair advice/S.LOG1 advice/S
advised 'exchanged, the line' 'type: hive repair advice/S advice/S.LOG1'
obey
same 'advice: exchanged, the line repairs' advice/S sample-10
try 'advice: exchanged, to read' 2 '' 'exchange the two' hive check --log advice/S advice/S.LOG1
advised 'exchanged, to read, the line' 'type: hive check --log advice/S.LOG1 advice/S'

# 24, and 25: of a log of another state; of the later of two; of two that do not fit together.
rm -rf advice/S.*
cp spoilt-short advice/S
try 'advice: 24' 1 'refused 24 at 0' 'it has 65536 bytes and needs 69632' hive repair --no-backup advice/S new-log-grown
advised '24, the line' 'to lengthen it with zeros, type: hive repair --no-backup --grow advice/S new-log-grown'
try 'advice: 24, to read' 1 'refused 24 at 0' 'it has 65536 bytes and needs 69632' hive ls advice/S --log new-log-grown
advised '24, to read, the line' 'to lengthen it with zeros, type: hive ls --grow --log new-log-grown advice/S'
cp new-log-grown advice/S.LOG1
try 'advice: 24, beside it' 1 'refused 24 at 0' 'it has 65536 bytes and needs 69632' hive repair advice/S
advised '24, beside it, the line' 'to lengthen it with zeros, type: hive repair --grow advice/S'
obey
same 'advice: 24, the line repairs' advice/S sample-8
rm -rf advice/S.*
cp spoilt advice/S
try 'advice: 25' 1 'refused 25 at 0' 'new-log2: the time stamps or the numbers' hive repair advice/S new-log2
advised '25, the line' "$anew: hive repair advice/S"
cp new-log1 advice/S.LOG1
cp new-log2 advice/S.LOG2
try 'advice: 25, the logs beside it fit' 1 'refused 25 at 0' 'advice/S.LOG2: the time stamps or the numbers' hive repair advice/S advice/S.LOG2
advised '25, the logs beside it' 'the logs beside it fit. Type: hive repair advice/S'
obey
same 'advice: 25, the line repairs' advice/S sample-10
cp torn-base advice/S
cp torn-log1 advice/S.LOG1
cp torn-log2 advice/S.LOG2
try 'advice: 25, both do not fit together' 1 'refused 25 at 0' 'the time stamps or the numbers' hive repair advice/S
advised '25, one alone' 'both do not fit together, and one alone may leave out what belongs to it; to take one all the same, type: hive repair --only-this-log advice/S advice/S.LOG2'
cp spoilt "advice/a b\$c"
try 'advice: a name for the shell' 1 'refused 7 at 0' 'differ' hive check "advice/a b\$c"
advised 'a name for the shell, the line' "$look_for: hive repair 'advice/a b\$c'"
hidden=$(printf 'advice/a\tb')
cp spoilt "$hidden"
try 'advice: a name with hidden characters' 1 'refused 7 at 0' 'differ' hive check "$hidden"
right 'advice: a name with hidden characters, no line' [ "$(grep -ci 'type:' stderr)" = 0 ]
rm -rf advice obeyed
