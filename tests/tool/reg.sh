# The tree as text that regedit reads. The hive `reg` has every kind of value and of line at its bounds; its text is written out here by hand.

offline='HKEY_LOCAL_MACHINE\Offline'
pair=$(printf '\360\237\230\200') # U+1F600
cat <<'END' | sed "s/<pair>/$pair/; s/<half>/$replaced/; s/<order>/$(printf '\033')/; s/<near>/$(printf '\304\212\340\250\215')/" >reg.wanted
Windows Registry Editor Version 5.00

[HKEY_LOCAL_MACHINE\Offline]

[HKEY_LOCAL_MACHINE\Offline\"q"]

[HKEY_LOCAL_MACHINE\Offline\@]

[HKEY_LOCAL_MACHINE\Offline\a]b]

[HKEY_LOCAL_MACHINE\Offline\bytes]

[HKEY_LOCAL_MACHINE\Offline\bytes\24]
@=hex:00,05,0a,0f,14,19,1e,23,28,2d,32,37,3c,41,46,4b,50,55,5a,5f,64,69,6e,73

[HKEY_LOCAL_MACHINE\Offline\bytes\25]
@=hex:00,05,0a,0f,14,19,1e,23,28,2d,32,37,3c,41,46,4b,50,55,5a,5f,64,69,6e,\
  73,78

[HKEY_LOCAL_MACHINE\Offline\bytes\26]
@=hex:00,05,0a,0f,14,19,1e,23,28,2d,32,37,3c,41,46,4b,50,55,5a,5f,64,69,6e,\
  73,78,7d

[HKEY_LOCAL_MACHINE\Offline\bytes\48]
@=hex:00,05,0a,0f,14,19,1e,23,28,2d,32,37,3c,41,46,4b,50,55,5a,5f,64,69,6e,\
  73,78,7d,82,87,8c,91,96,9b,a0,a5,aa,af,b4,b9,be,c3,c8,cd,d2,d7,dc,e1,e6,eb

[HKEY_LOCAL_MACHINE\Offline\bytes\49]
@=hex:00,05,0a,0f,14,19,1e,23,28,2d,32,37,3c,41,46,4b,50,55,5a,5f,64,69,6e,\
  73,78,7d,82,87,8c,91,96,9b,a0,a5,aa,af,b4,b9,be,c3,c8,cd,d2,d7,dc,e1,e6,eb,\
  f0

[HKEY_LOCAL_MACHINE\Offline\bytes\51]
@=hex:00,05,0a,0f,14,19,1e,23,28,2d,32,37,3c,41,46,4b,50,55,5a,5f,64,69,6e,\
  73,78,7d,82,87,8c,91,96,9b,a0,a5,aa,af,b4,b9,be,c3,c8,cd,d2,d7,dc,e1,e6,eb,\
  f0,f5,fa

[HKEY_LOCAL_MACHINE\Offline\first]
"a..............................................................."=hex:00,05,\
  0a
"b................................................................"=hex:00,05
"c................................................................"=hex:00,\
  05,0a
"d................................................................."=hex:00,\
  05
"e.................................................................."=hex:00,\
  05,0a
"f..................................................................."=hex:00
"g..................................................................."=hex:00,\
  05
"h........................................................................................."=hex:00,\
  05
"<pair>................................................................"=hex:00,\
  05

[HKEY_LOCAL_MACHINE\Offline\kinds]
@="xy"
"escaped"="\"\\]"
"end"=""
"open"=hex(1):78,00,79,00
"odd"=hex(1):78,00,00,00,00
"byte"=hex(1):00
"two ends"=hex(1):78,00,00,00,00,00
"inner"=hex(1):78,00,00,00,79,00,00,00
"feed"=hex(1):78,00,0a,00,00,00
"return"=hex(1):0d,00,00,00
"near"="<near>"
"pair"="<pair>"
"half"="<half>!"
"order"="<order>c"
"dword"=dword:ff00ab01
"dword 3"=hex(4):01,02,03
"dword 5"=hex(4):01,02,03,04,05
"binary"=hex:fe
"expand"=hex(2):25,00,00,00
"several"=hex(7):61,00,00,00,00,00
"qword"=hex(b):01,00,00,00,00,00,00,80
"type 16"=hex(10):78
"type last"=hex(ffffffff):78
"none 0"=hex(0):
"none 1"=hex(1):
"none 3"=hex:
"none 4"=hex(4):
"none 7"=hex(7):

[HKEY_LOCAL_MACHINE\Offline\names]
"a\"b"=dword:00000000
"a\\b"=dword:00000001
"]"=dword:00000002
"@"=dword:00000003
"a=b"=dword:00000004
"["=dword:00000005
"<pair>"=dword:00000006
"<half>g"=dword:00000007

[HKEY_LOCAL_MACHINE\Offline\<half>g]

[HKEY_LOCAL_MACHINE\Offline\<pair>]

[HKEY_LOCAL_MACHINE\Offline\<pair>\leaf]
"v"=dword:00000001

END
# part FROM TO: lines of that text behind its first two
part() { sed -n "1,2p; /$1/,/$2/p" reg.wanted; }
reg_to() { to=$1 && shift && hive reg "$@" >"$to"; }

try 'reg: every kind of value, line and name' 4 '' 'reg: the key \a\\x0ab is left out, with all below it: no line can hold its name' reg_to reg.plain --utf8 reg
same 'reg: the text' reg.plain reg.wanted
printf '%s\n' 'hive: reg: the key \a\\x0ab is left out, with all below it: no line can hold its name' \
    'hive: reg: the value a\x0ab of the key \names is left out: no line can hold its name' \
    'hive: reg: the value n\x00 of the key \names is left out: no line can hold its name' \
    'hive: reg: the value \x0d of the key \names is left out: no line can hold its name' \
    'hive: reg: halves of pairs, which UTF-8 cannot hold, are written as U+FFFD' >wanted
same 'reg: what is left out or replaced is told' stderr wanted
try 'reg: in UTF-16' 4 '' '\names is left out' reg_to reg.wide reg
sed '$d' wanted >told
same 'reg: nothing is replaced there' stderr told

# The smallest hive, byte by byte.
printf '\377\376' >wanted
printf 'Windows Registry Editor Version 5.00\r\n\r\n[HKEY_LOCAL_MACHINE\\Offline]\r\n\r\n' | od -An -v -to1 -w1 | while read -r byte; do printf "\\$byte\\0"; done >>wanted
try 'reg: the minimal hive' 0 '' '' reg_to found minimal
same 'reg: UTF-16 with its mark' found wanted
try 'reg: with a prefix' 0 "$(printf 'Windows Registry Editor Version 5.00\n\n[HKEY_USERS\\%s]' "$pair")" '' hive reg --utf8 --prefix "HKEY_USERS\\\\$pair" minimal

# From a key down.
try 'reg: a leaf' 0 "$(part 'leaf]' '^$')" '' hive reg --utf8 reg "$pair\\LEAF"
right 'reg: the empty line behind it' [ "$(wc -l <stdout)" -eq 5 ]
try 'reg: a key and those below it' 0 "$(part 'bytes]' 'fa$')" '' hive reg --utf8 reg bytes
try 'reg: nothing below it' 0 "$(part '\\@]' '^$')" '' hive reg --utf8 reg @
try 'reg: the root by its path' 4 "$(cat reg.wanted)" 'halves of pairs' hive reg --utf8 reg '\'
try 'reg: below a key that is left out' 4 "$(head -n 2 reg.wanted)" 'the key \a\\x0ab is left out, with all below it' hive reg --utf8 reg 'a\\x0ab\below'
try 'reg: a half alone' 4 "$(printf 'Windows Registry Editor Version 5.00\n\n[%s\\%sg]' "$offline" "$replaced")" 'as U+FFFD' hive reg --utf8 reg '\\ud83dg'

# To a terminal: UTF-8, and no orders.
try 'reg: to a terminal' 4 "$(part 'kinds]' '^$' | sed "s/$(printf '\033')/\\\\x1b/")" 'as U+FFFD' on_terminal reg reg kinds
try 'reg: keys, to a terminal' 0 "$(printf '%s\n' 'Windows Registry Editor Version 5.00' '' "[$offline\\\\\\x07]")" '' on_terminal reg notation '\\x07'
try 'reg: to a pipe as it is' 0 "$(printf 'Windows Registry Editor Version 5.00\n\n[%s\\\007]' "$offline")" '' hive reg --utf8 notation '\\x07'

# Refused: no text at all.
try 'reg: refused' 1 '' 'refused 12 at 120' hive reg bad-key
try 'reg: refused, in words' 1 '' 'bad-key: a record in a cell is wrong' hive reg --utf8 bad-key
try 'reg: whatever is asked for' 1 '' 'refused 12 at 32' hive reg no-root nobody
try 'reg: no such key' 1 '' 'the root has no subkey nobody' hive reg sample nobody
try 'reg: not finished' 1 '' 'give its log with --log' hive reg spoilt
try 'reg: as its log would repair it' 0 "$(hive reg --utf8 sample)" '' hive reg --utf8 --log log spoilt
reg_input() { hive reg --utf8 - <sample; }
try 'reg: standard input' 0 "$(hive reg --utf8 sample)" '' reg_input
reg_full() { hive reg sample >/dev/full; }
try 'reg: standard output is full' 2 '' 'standard output: it cannot be written' reg_full
try 'reg: a word too many' 2 '' 'reg wants FILE [PATH], and "x" is a word too many; see: hive --help' hive reg sample a x
try 'reg: no json' 2 "$(wrong 'reg takes no --json')" 'reg takes no --json' hive reg --json sample
try 'reg: no file' 2 '' 'hive: nothing: No such file' hive reg nothing
for prefix in '' '\' 'a\' '\\\a' 'a\\\b' '-HKEY_USERS' 'a\\x0ab'; do
    try "reg: no prefix: $prefix" 2 '' '--prefix wants the path of a key' hive reg --prefix "$prefix" minimal
done
rm -f trace
traced reg sample
traced reg spoilt --log log
right 'reg: it opens no file for writing' [ "$(grep -c '^open 0 ' trace) $(grep -cv '^open 0 ' trace)" = '3 0' ]

# A reader of the format that shares nothing with the tool: the frames say the same.
try 'reg: 60,000 subkeys' 0 60001 '' eval 'hive reg --utf8 wide | grep -c "^\[.*]$"'
if command -v python3 >/dev/null && python3 -c 'import sys; sys.exit(sys.version_info < (3, 8))'; then
    # read_back FILE KEYS VALUES PATH..
    read_back() {
        file=$1 keys=$2 values=$3
        shift 3
        rm -f reg.frames
        hive export "$file" reg.frames >/dev/null
        hive reg --prefix 'HKEY_USERS\x' "$file" "$@" >reg.wide 2>/dev/null || true
        hive reg --prefix 'HKEY_USERS\x' --utf8 "$file" "$@" >reg.plain 2>/dev/null || true
        try "reg: read back, $file $*" 0 "$keys keys, $values values" '' python3 -B "$top/tests/python/reg.py" reg.frames reg.wide reg.plain 'HKEY_USERS\x' "$@"
    }
    read_back reg 17 52
    read_back reg 7 6 bytes
    read_back minimal 1 0
    read_back sample 16 10
    read_back sample 1 10 "$print"
    read_back notation 5 7
    read_back sources 8 3
    read_back letters 5 0
    read_back wide 60001 0
    read_back deep 513 0
else
    echo 'left out: the text read back, for there is no python3 of 3.8 or later'
fi
