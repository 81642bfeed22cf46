# What deletion left in free cells.

left="$(printf '%s\n' 'key at 120 length 4 gone' 'key at 208 length 4 \\x1b[2J' 'value at 296 length 0 @' 'key at 360 length 6 \\u202ex\\u2028' \
    'value at 448 length 1 \x40' 'value at 480 length 3 a\\b' "$(printf 'value at 552 length 4 \303\251\\ud83d')")"
try 'deleted' 0 "$left" '' hive deleted left
try 'deleted: nothing' 0 '' '' hive deleted minimal
right 'deleted: nothing is no line' [ ! -s stdout ]
try 'deleted: only the tree is broken' 0 "$left" '' hive deleted left-no-root
try 'deleted: check refuses that' 1 'refused 12 at 32' 'does not fit its cell' hive check left-no-root
try 'deleted: a bin that is none' 1 'refused 9 at 4096' 'left-no-bin: the header of a bin is wrong, at offset 4096 (0x1000), which is byte 8192' hive deleted left-no-bin
try 'deleted: cut short' 1 'refused 6 at 0' 'cut: the file ends before its bins do' hive deleted cut
try 'deleted: not finished' 1 'refused 7 at 0' 'give its log with --log' hive deleted left-torn
try 'deleted: as its log would repair it' 0 "$left" '' hive deleted --log left-log left-torn
left_input() { hive deleted "$@" <left; }
try 'deleted: standard input' 0 "$left" '' left_input -
try 'deleted: json' 0 "$(printf '%s\n' '{"file":"left","answer":"key","at":120,"length":4,"name":"gone"}' '{"file":"left","answer":"key","at":208,"length":4,"name":"\u001b[2J"}' \
    '{"file":"left","answer":"value","at":296,"length":0,"name":""}' '{"file":"left","answer":"key","at":360,"length":6,"name":"\u202ex\u2028"}' \
    '{"file":"left","answer":"value","at":448,"length":1,"name":"@"}' '{"file":"left","answer":"value","at":480,"length":3,"name":"a\\b"}' \
    '{"file":"left","answer":"value","at":552,"length":4,"name":"'"$(printf '\303\251')$replaced"'","notation":"'"$(printf '\303\251')"'\\ud83d","replaced":true}')" '' hive deleted --json left
try 'deleted: json of a refusal' 1 '{"file":"cut","answer":"refused","number":6,"place":null,"key":null,"words":"the file ends before its bins do"}' '' hive deleted --json cut
# More than one call has room for, and exactly as many.
for count in 4096 4097; do
    awk -v n=$count 'BEGIN { for (i = 0; i < n; i++) print "value at " 144 + 24 * i " length 0 @" }' >wanted
    hive deleted left-$count >found
    same "deleted: $count of them" found wanted
done
try 'deleted: a word too many' 2 '' 'deleted wants FILE, and "x" is a word too many; see: hive --help' hive deleted left x
try 'deleted: no option of its own' 2 '' 'deleted takes no -l' hive deleted -l left
try 'deleted: no file' 2 '' 'hive: nothing: No such file' hive deleted nothing
rm -f trace
traced deleted left
traced deleted left-torn --log left-log
right 'deleted: it opens no file for writing' [ "$(grep -c '^open 0 ' trace) $(grep -cv '^open 0 ' trace)" = '3 0' ]
