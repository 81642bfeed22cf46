# Every key with its stamp and every value with its data, one to a line.

zero='1601-01-01T00:00:00.0000000Z'
tab=$(printf '\t')
# tabbed: a text of this script, where | stands for a tab
tabbed() { sed "s/^0 /$zero /; s/^0\$/$zero /; s/|/$tab/g"; }

# What keys prints, with a stamp before it, and between them the values of the one key that has some.
{
    hive keys sample | sed "s/^/$zero /" | sed '/Print$/q'
    tabbed <<'END_OF_TEXT'
|EventMessageFile|REG_EXPAND_SZ|"%SystemRoot%\\é.dll"
|@|REG_SZ|"xy"
|TypesSupported|REG_DWORD|7 (0x7)
|Big|REG_DWORD_BIG_ENDIAN|258 (0x102)
|Long|REG_QWORD|9223372036854775809 (0x8000000000000001)
|Several|REG_MULTI_SZ|"one"|"two"
|Pair|REG_SZ|"😀"
END_OF_TEXT
    printf '\tBytes\tREG_BINARY\t%s\n' "$(hive value sample "$print" Bytes | tr -d '\n')"
    printf '\tLarge\tREG_BINARY\t%s\n' "$(hive value sample "$print" Large | tr -d '\n')"
    printf '\tEmpty\tREG_BINARY\t\n%s d\n' "$zero"
} >dump.wanted
try 'dump' 0 "$(cat dump.wanted)" '' hive dump sample
try 'dump: the root by its path' 0 "$(cat dump.wanted)" '' hive dump sample '\'
try 'dump: as many keys and values as the check counts' 0 '16 10' '' eval 'hive dump sample | awk "/^\t/ { v++ } !/^\t/ { k++ } END { print k, v }"'
try 'dump: from a key down' 0 "$(sed -n '/EventLog/,/Empty/p' dump.wanted)" '' hive dump sample 'controlset001\services\EVENTLOG'
try 'dump: a key with nothing in it' 0 "$zero a\\k7" '' hive dump sample 'A\K7'
hive dump minimal >found
echo "$zero " >wanted
same 'dump: the root alone' found wanted
try 'dump: stamps' 0 "$(printf '%s Bin\n%s Esc\n%s é' 2024-02-29T23:59:59.1234567Z $zero +60056-05-28T05:36:10.9551615Z)" '' \
    eval 'hive dump sources | sed -n "s/ .*Application./ /p"'

# Text types at their bounds, and names that a line could stumble over.
tabbed >wanted <<'END_OF_TEXT'
0 kinds
|@|REG_SZ|"xy"
|escaped|REG_SZ|""\\]"
|end|REG_SZ|""
|open|REG_SZ|"xy"
|odd|REG_SZ|7800000000
|byte|REG_SZ|00
|two ends|REG_SZ|"x"
|inner|REG_SZ|"x\x00y"
|feed|REG_SZ|"x\x0a"
|return|REG_SZ|"\x0d"
|near|REG_SZ|"Ċ਍"
|pair|REG_SZ|"😀"
|half|REG_SZ|"\ud83d!"
|order|REG_SZ|"\x1bc"
|dword|REG_DWORD|4278233857 (0xff00ab01)
|dword 3|REG_DWORD|010203
|dword 5|REG_DWORD|0102030405
|binary|REG_BINARY|fe
|expand|REG_EXPAND_SZ|"%"
|several|REG_MULTI_SZ|"a"
|qword|REG_QWORD|9223372036854775809 (0x8000000000000001)
|type 16|0x10|78
|type last|0xffffffff|78
|none 0|REG_NONE|
|none 1|REG_SZ|""
|none 3|REG_BINARY|
|none 4|REG_DWORD|
|none 7|REG_MULTI_SZ|
END_OF_TEXT
try 'dump: every kind of value' 0 "$(cat wanted)" '' hive dump reg kinds
try 'dump: to a terminal it is the same' 0 "$(cat wanted)" '' on_terminal dump reg kinds
tabbed >wanted <<'END_OF_TEXT'
0
|@|REG_DWORD|0 (0x0)
|\x40|REG_DWORD|1 (0x1)
|a\\b|REG_DWORD|2 (0x2)
|\\x41|REG_DWORD|3 (0x3)
|C:\\u0041|REG_DWORD|4 (0x4)
|ab\x07|REG_DWORD|5 (0x5)
|\ufeff\ud83d|REG_DWORD|6 (0x6)
|n\x00|REG_DWORD|7 (0x7)
|😀\x0a|REG_DWORD|8 (0x8)
0 \\x07
0 @
0 @\\\u202ex\\u2028
0 @\\\ud83dg
END_OF_TEXT
try 'dump: the notation of names' 0 "$(cat wanted)" '' hive dump notation
# Each name that is printed, given back, finds the value that is shown behind it.
sed -n 's/^\t//p' wanted | while IFS="$tab" read -r name kind data; do printf '%s\n' "$data" && hive value notation '' "$name"; done | uniq -u >found
right 'dump: what is printed can be given back' [ ! -s found ]

# Several strings, of which some are empty; none; a byte too many; and a tab in a string.
zeros='\0\0\0\0'
# value NAME TYPE LENGTH DATA: the frame of a value; the name is one letter, TYPE is in octal, and so is the length of the payload
value() { printf "\\$3\\0\\0\\0\\021\\0\\$2\\0\\0\\0\\002\\0\\0\\0$1\\0$4"; }
{
    printf "\\012\\0\\0\\0\\020\\0$zeros${zeros}r\\0"
    value a 7 026 'a\0\0\0\0\0b\0\0\0\0\0'
    value b 7 016 "$zeros"
    value c 7 014 '\0\0'
    value d 7 015 'a\0\377'
    value e 1 016 'x\0\011\0'
    value f 7 020 'x\0\0\0\0\0'
    printf '\0\0\0\0\022\0'
} >frames
rm -f strings
hive build frames strings >/dev/null
tabbed >wanted <<'END_OF_TEXT'
0
|a|REG_MULTI_SZ|"a"|""|"b"
|b|REG_MULTI_SZ|""
|c|REG_MULTI_SZ|
|d|REG_MULTI_SZ|6100ff
|e|REG_SZ|"x\x09"
|f|REG_MULTI_SZ|"x"
END_OF_TEXT
try 'dump: several strings' 0 "$(cat wanted)" '' hive dump strings

# JSON: the object of `value --json`, and more.
try 'dump: json of keys' 0 "$(printf '%s\n' '{"file":"notation","answer":"key","path":"@","written":"'$zero'"}' '{"file":"notation","answer":"key","path":"@\\\u202ex\u2028","written":"'$zero'"}' \
    '{"file":"notation","answer":"key","path":"@\\'"$replaced"'g","notation":"@\\\\\\ud83dg","written":"'$zero'","replaced":true}')" '' hive dump --json notation @
hive dump --json sample "$print" | sed -n 's/"path":.*"written":"[^"]*",//; s/,"number":[0-9]*//; /"answer":"data"/p' >found
for name in EventMessageFile @ TypesSupported Big Long Several Pair Bytes Large Empty; do hive value --json sample "$print" "$name"; done >wanted
same 'dump: json of a value is that of `value`, with more' found wanted
try 'dump: json of a number' 0 '{"file":"sample","answer":"data","path":"'"$(echo "$print" | sed 's/\\/\\\\/g')"'","name":"Big","written":"'$zero'","type":"REG_DWORD_BIG_ENDIAN","length":4,"hex":"00000102","number":258}' '' \
    eval 'hive dump --json sample "$print" | grep Big'
try 'dump: json of halves in a name' 0 '{"file":"notation","answer":"data","path":"","name":"\ufeff'"$replaced"'","name_notation":"\\ufeff\\ud83d","written":"'$zero'","type":"REG_DWORD","length":4,"hex":"06000000","number":6,"replaced":true}' '' \
    eval 'hive dump --json notation | grep name_notation'
if has_python 'the dump read back as JSON'; then
    # The export of the same hive says the same: path, stamp, name, type and data.
    for file in sample notation reg sources letters deep wide; do
        rm -f frames
        hive export "$file" frames >/dev/null
        hive dump --json "$file" >found
        try "dump: json of $file, parsed and held against its frames" 0 "$(hive check "$file" | sed 's/.*keys \([0-9]*\) values \([0-9]*\) .*/\1 keys, \2 values/')" '' python3 -B "$top/tests/python/dump.py" frames found
    done
fi

try 'dump: the check comes first' 1 'refused 12 at 120' 'bad-key: a record in a cell is wrong' hive dump bad-key
try 'dump: two values of one name' 1 'refused 29 at 520' 'two values of one name' hive dump names
try 'dump: whatever is asked for' 1 'refused 12 at 32' 'does not fit its cell' hive dump no-root nobody
try 'dump: json of a refusal' 1 "$(hive keys --json cut)" '' hive dump --json cut
try 'dump: no such key' 1 'refused 17 at 0' 'the root has no subkey nobody' hive dump sample nobody
try 'dump: not finished' 1 'refused 7 at 0' 'give its log with --log' hive dump spoilt
try 'dump: as its log would repair it' 0 "$(cat dump.wanted)" '' hive dump --log log spoilt
try 'dump: as it is' 0 "$(cat dump.wanted)" 'it is dirty and read as it is' hive dump --as-is dirty
try 'dump: as it is, json' 0 26 'it is dirty and read as it is' eval 'hive dump --json --as-is dirty | grep -c "^{.*,\"as_is\":true}\$"'
dump_input() { hive dump - <sample; }
try 'dump: standard input' 0 "$(cat dump.wanted)" '' dump_input
dump_full() { hive dump "$@" >/dev/full; }
try 'dump: standard output is full' 2 '' 'cannot write the answer' dump_full sample
try 'dump: standard output is full, of much' 2 '' 'cannot write the answer' dump_full wide
try 'dump: a word too many' 2 '' 'dump wants FILE [PATH], and "x" is a word too many; see: hive --help' hive dump sample a x
try 'dump: no option of its own' 2 '' 'dump takes no -l' hive dump -l sample
try 'dump: no file' 2 '' 'hive: nothing: No such file' hive dump nothing
rm -f trace
traced dump sample
traced dump spoilt --log log
right 'dump: it opens no file for writing' [ "$(grep -c '^open 0 ' trace) $(grep -cv '^open 0 ' trace)" = '3 0' ]
rm -f dump.wanted
