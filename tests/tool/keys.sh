# All keys of a hive, by their paths.

chain='ControlSet001 ControlSet001\Services ControlSet001\Services\EventLog ControlSet001\Services\EventLog\Application'
every="$(printf '%s\n' '' a 'a\k1' 'a\k2' 'a\k3' 'a\k4' 'a\k5' 'a\k6' 'a\k7' b $chain "$print" d)"
try 'keys' 0 "$every" '' hive keys sample
try 'keys: as many as the check counts' 0 "accepted bins 1 keys $(hive keys sample | wc -l | tr -d ' ') values 10 used $(hive check sample | sed 's/.*used //')" '' hive check sample
try 'keys: the root by its path' 0 "$every" '' hive keys sample '\'
hive keys minimal >found
echo >wanted
same 'keys: the root alone is an empty line' found wanted
try 'keys: from a key down, as its names are stored' 0 "$(printf '%s\n' 'ControlSet001\Services\EventLog' 'ControlSet001\Services\EventLog\Application' "$print")" '' \
    hive keys sample 'controlset001\SERVICES\eventlog'
try 'keys: of a key with nothing below it' 0 'a\k7' '' hive keys sample '\a\k7'
try 'keys: in order' 0 "$(printf 'a\na\\k1\na\\k2\na\\k3\na\\k4\na\\k5\na\\k6\na\\k7')" '' hive keys sample A
try 'keys: the notation of names' 0 "$(printf '%s\n' '' '\\x07' @ '@\\\u202ex\\u2028' '@\\\ud83dg')" '' hive keys notation

# Each path that is printed leads to its key.
for file in sample notation letters sources; do
    hive keys --json $file | sed 's/.*"at":\([0-9]*\).*/key at \1/' >wanted
    hive keys $file >printed
    while IFS= read -r path; do hive key $file "$path"; done <printed >found
    same "keys: what is printed can be given back ($file)" found wanted
done

try 'keys: json' 0 "$(printf '%s\n' '{"file":"notation","answer":"key","at":208,"path":"@"}' '{"file":"notation","answer":"key","at":296,"path":"@\\\u202ex\u2028"}' \
    '{"file":"notation","answer":"key","at":384,"path":"@\\'"$replaced"'g","notation":"@\\\\\\ud83dg","replaced":true}')" '' hive keys --json notation @
try 'keys: json of the root' 0 '{"file":"minimal","answer":"key","at":32,"path":""}' '' hive keys --json minimal
try 'keys: the check comes first' 1 'refused 12 at 120' 'bad-key: a record in a cell is wrong' hive keys bad-key
try 'keys: whatever is asked for' 1 'refused 12 at 32' 'does not fit its cell' hive keys no-root 'nobody'
try 'keys: too deep' 1 "$(hive check chain 2>/dev/null)" 'deeper than level 512' hive keys chain
try 'keys: json of a refusal' 1 '{"file":"cut","answer":"refused","number":6,"place":null,"key":null,"words":"the file ends before its bins do"}' '' hive keys --json cut
try 'keys: no such key' 1 'refused 17 at 0' 'the root has no subkey nobody' hive keys sample nobody
try 'keys: no path' 1 'refused 16 at 0' 'the path is not possible' hive keys sample 'a\\\'
try 'keys: not finished' 1 'refused 7 at 0' 'give its log with --log' hive keys spoilt
try 'keys: as its log would repair it' 0 "$every" '' hive keys --log log spoilt
keys_input() { hive keys "$@" <sample; }
try 'keys: standard input' 0 "$every" '' keys_input -
try 'keys: a word too many' 2 '' 'keys wants FILE [PATH], and "x" is a word too many; see: hive --help' hive keys sample a x
try 'keys: no option of its own' 2 '' 'keys takes no -l' hive keys -l sample
try 'keys: no file' 2 '' 'hive: nothing: No such file' hive keys nothing
rm -f trace
traced keys sample
traced keys spoilt --log log
right 'keys: it opens no file for writing' [ "$(grep -c '^open 0 ' trace) $(grep -cv '^open 0 ' trace)" = '3 0' ]
