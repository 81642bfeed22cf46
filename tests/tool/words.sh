# Paths as other tools write them, and what was perhaps meant.

# hex TEXT: its characters as units; frame KIND BYTES..: one frame; key NAME, end_key; dword NAME N
hex() { printf %s "$1" | od -An -v -tx1 | tr -d '\n' | sed 's/ \(..\)/ \1 00/g'; }
octets() { [ $# -eq 0 ] || printf "$(printf '\\%03o' $(printf '0x%s ' "$@"))"; }
frame() {
    kind=$1
    shift
    octets $(printf '%02x %02x' $(($# % 256)) $(($# / 256))) 00 00 "$kind" 00 "$@"
}
key() { frame 10 00 00 00 00 00 00 00 00 $(hex "$1"); }
end_key() { frame 12; }
dword() { frame 11 04 00 00 00 $(printf %02x $((2 * ${#1}))) 00 00 00 $(hex "$1") $(printf '%02x %02x' $(($2 % 256)) $(($2 / 256))) 00 00; }

# system N: a hive whose current control set is so called, if N is a number
system() {
    key R
    key a/b && key c && end_key && end_key
    key ControlSet001 && key Services && dword Start 7 && key Tcpip && end_key && end_key && end_key
    key ControlSet002 && key Services && dword Start 8 && key Dhcp/Nt && end_key && end_key && end_key
    [ -z "$1" ] || { key Select && dword Current "$1" && end_key; }
    end_key
}
for n in 1 2 7 1000; do system $n >frames.$n; done
system '' >frames.none
rm -f set1 set2 set7 set1000 set-none
for n in 1 2 7 1000; do hive build frames.$n set$n >/dev/null; done
hive build frames.none set-none >/dev/null
# reads NAME PATH AS: the key at PATH is that at AS, and it is told so
reads() { try "paths: $1" 0 "$(hive key set2 "$3")" "hive: set2: $2 is read as $3" hive key set2 "$2"; }

reads 'HKLM' 'HKLM\SYSTEM\ControlSet001' 'ControlSet001'
reads 'HKLM:, any case' 'hklm:\system\ControlSet001\services' 'ControlSet001\services'
reads 'HKEY_LOCAL_MACHINE' 'HKEY_LOCAL_MACHINE\SYSTEM\ControlSet001' 'ControlSet001'
reads 'with the machine before it' 'Computer\HKEY_LOCAL_MACHINE\SYSTEM\ControlSet001' 'ControlSet001'
reads 'HKU' 'HKU\S-1-5-18\ControlSet001' 'ControlSet001'
reads 'HKEY_USERS' 'HKEY_USERS\S-1-5-18\ControlSet001' 'ControlSet001'
reads 'HKCU' 'HKCU\ControlSet001' 'ControlSet001'
reads 'HKEY_CURRENT_USER' 'HKEY_CURRENT_USER\Select' 'Select'
reads 'a backslash at the end' 'ControlSet001\' 'ControlSet001'
reads 'the current control set' 'CurrentControlSet\Services' 'ControlSet002\Services'
reads 'that alone' 'currentcontrolset' 'ControlSet002'
reads 'slashes' 'ControlSet001/Services/Tcpip' 'ControlSet001\Services\Tcpip'
reads 'all of it' 'HKLM/SYSTEM/CurrentControlSet/Services/' 'ControlSet002\Services'
reads 'a slash that is one' 'HKLM\SYSTEM\CurrentControlSet\Services\Dhcp/Nt\' 'ControlSet002\Services\Dhcp/Nt'
try 'paths: the root' 0 "$(hive key set2 '')" 'hive: set2: HKLM\SYSTEM is read as \, the root' hive key set2 'HKLM\SYSTEM'
try 'paths: the root, and a backslash' 0 "$(hive key set2 '')" 'HKLM\SYSTEM\ is read as \, the root' hive key set2 'HKLM\SYSTEM\'
try 'paths: as given, nothing is told' 0 "$(hive key set2 'a/b\c')" '' hive key set2 'A/B\C'
try 'paths: two sets, the first' 0 "$(hive key set1 ControlSet001)" 'CurrentControlSet is read as ControlSet001' hive key set1 CurrentControlSet

# Where nothing helps: the path as given, or the reading that came below the root.
for file in set1000 set-none; do
    try "paths: $file names no set" 1 'refused 17 at 0' 'the root has no subkey CurrentControlSet' hive key $file 'CurrentControlSet\Services'
done
try 'paths: a set that is not there' 1 'refused 17 at 0' 'the root has no subkey CurrentControlSet' hive key set7 'CurrentControlSet\Services'
try 'paths: a root alone' 1 'refused 16 at 0' "a path starts below the hive's own root" hive key set2 'HKLM\'
try 'paths: HKLM is no root in the middle' 1 'refused 17 at 0' 'the root has no subkey x' hive key set2 'x\HKLM\SYSTEM\Select'
try 'paths: nothing helps' 1 'refused 17 at 0' 'the root has no subkey x/y (see' hive key set2 x/y
try 'paths: no such key below the current set' 1 'refused 17 at 0' 'ControlSet002\Services has no subkey zzzz (see' hive key set2 'HKLM\SYSTEM\CurrentControlSet\Services\zzzz'
right 'paths: and how it was read' grep -qF '\Services\zzzz is read as ControlSet002\Services\zzzz' stderr
try 'paths: no such key, slashes' 1 'refused 17 at 0' ': a\k1 has no subkey x (see' hive key sample 'a/k1/x'
try 'paths: as given, and deeper' 1 'refused 17 at 0' ': ControlSet001 has no subkey x/y (see' hive key set2 'ControlSet001\x/y'

# Every verb with a PATH, and what it prints is of the path that was read.
try 'paths: ls' 0 "$(hive ls set2 'ControlSet002\Services')" 'is read as ControlSet002\Services' hive ls set2 'CurrentControlSet\Services'
try 'paths: keys' 0 "$(hive keys set2 'ControlSet002')" 'is read as ControlSet002' hive keys set2 'CurrentControlSet\'
try 'paths: value' 0 '8 (0x8)' 'is read as ControlSet002\Services' hive value set2 'HKLM\SYSTEM\CurrentControlSet\Services' Start
try 'paths: value, by number' 0 '8 (0x8)' 'is read as ControlSet002\Services' hive value --nth 1 set2 'CurrentControlSet/Services' Start
try 'paths: value, none of that name' 1 'refused 18 at 0' 'in key \ControlSet002\Services (at' hive value set2 'CurrentControlSet\Services' zzzz
try 'paths: value, no such key' 1 'refused 17 at 0' 'ControlSet002 has no subkey zzzz' hive value set2 'CurrentControlSet\zzzz' Start
try 'paths: reg' 0 "$(hive reg --utf8 set2 ControlSet002)" 'is read as ControlSet002' hive reg --utf8 set2 'CurrentControlSet'
try 'paths: json' 0 "$(hive key --json set2 'ControlSet002\Services' | sed 's/}$/,"read_as":"ControlSet002\\\\Services"}/')" 'is read as' hive key --json set2 'CurrentControlSet\Services'
try 'paths: json, each object' 0 2 'is read as' eval 'hive ls --json set2 CurrentControlSet/Services | grep -c "\"read_as\":\"ControlSet002"'
try 'paths: json, refused' 1 1 'is read as' eval 'hive key --json set2 CurrentControlSet/zzzz >found || { grep -c "\"number\":17.*\"read_as\":\"ControlSet002.*zzzz\"}" found; false; }'
try 'paths: json, as given' 0 0 '' eval 'hive ls --json set2 ControlSet002 | grep -c read_as || true'

# What was perhaps meant: a name that is near, as names are printed, and nothing where none is.
nothing_meant() {
    name=$1
    shift
    if "$@" >stdout 2>stderr; then bad "meant: nothing, $name" 'it is there'; else right "meant: nothing, $name" eval '[ -s stderr ] && ! grep -qF "did you mean" stderr'; fi
}
try 'meant: a key' 1 'refused 17 at 0' ': the root has no subkey ControlSte001; did you mean ControlSet001? (see' hive key set2 'ControlSte001\Services'
try 'meant: a key below' 1 'refused 17 at 0' 'has no subkey Tpcip; did you mean Tcpip? (see' hive ls set2 'controlset001\services\Tpcip'
try 'meant: the nearest of two' 1 'refused 17 at 0' 'did you mean ControlSet002?' hive keys set2 'ControlSt002'
try 'meant: the first of two' 1 '' 'did you mean ControlSet001?' hive reg --utf8 set2 'ControlSet003'
try 'meant: a beginning' 1 'refused 17 at 0' 'has no subkey Serv; did you mean Services?' hive key set2 'ControlSet001\Serv'
try 'meant: behind another reading' 1 'refused 17 at 0' 'ControlSet002\Services has no subkey Dhcp; did you mean Dhcp/Nt?' hive key set2 'HKLM\SYSTEM\CurrentControlSet\Services\Dhcp'
try 'meant: a value' 1 'refused 18 at 0' '; did you mean Start? (see' hive value set2 'ControlSet001\Services' Satrt
try 'meant: a value, by number' 1 'refused 18 at 0' '; did you mean Start? (see' hive value --nth 1 set2 'ControlSet001\Services' Stat
try 'meant: json' 1 1 '' eval 'hive value --json set2 Select Curent | grep -c "no such value; did you mean Current?\"" && false'
try 'meant: a verb' 2 '' 'and explain; did you mean check?; see: hive --help' hive chekc sample
try 'meant: the beginning of a verb' 2 '' '; did you mean deleted?' hive del sample
nothing_meant 'a key' hive key set2 Nothing
nothing_meant 'a short key' hive key set2 'x'
nothing_meant 'a value' hive value set2 Select Nope
nothing_meant 'the unnamed value' hive value set2 Select @
nothing_meant 'a value that is there, once' hive value --nth 2 set2 Select Current
nothing_meant 'a verb' hive nothing sample
nothing_meant 'a key that is longer than is compared' hive key set2 "$(printf 'ControlSet001%070d' 0)"
# Only the first 4,096: sibling 4,097 is not looked at. Names are printed as they can be given.
many=$(awk 'BEGIN { for (n = 0; n < 4095; n++) { printf "\\020\\000\\000\\000\\021\\000\\003\\000\\000\\000\\010\\000\\000\\000"; for (k = 1000; k >= 1; k /= 10) printf "%d\\000", n / k % 10 } }')
{ key R && printf "$many" && dword Wolverine 1 && dword Elephant 2 && end_key; } >frames.many
rm -f many odd
hive build frames.many many >/dev/null
right 'meant: there are 4,097 values' [ "$(lines ls many)" = 4097 ]
try 'meant: value 4,096' 1 'refused 18 at 0' 'did you mean Wolverine?' hive value many '' Wolverina
nothing_meant 'not value 4,097' hive value many '' Elephent
{ key R && frame 11 03 00 00 00 0a 00 00 00 61 00 62 00 0a 00 5c 00 63 00 && key "$(printf 'one\033two')" && end_key && end_key; } >frames.odd
hive build frames.odd odd >/dev/null
try 'meant: a hidden character of a key' 1 'refused 17 at 0' 'did you mean one\\x1btwo?' hive key odd onetwo
try 'meant: hidden characters of a value' 1 'refused 18 at 0' 'did you mean ab\x0a\\c?' hive value odd '' 'ab\\c'

# Security descriptors as SDDL. In hexadecimal words: le16 N, le32 N; sid AUTHORITY SUB..; ace TYPE FLAGS MASK SID; acl ACE..; sd CONTROL OWNER GROUP SACL DACL ('': none, null: no list is there)
le16() { printf '%02x %02x ' $(($1 & 255)) $(($1 >> 8 & 255)); }
le32() { le16 $(($1 & 65535)) && le16 $(($1 >> 16)); }
sid() {
    printf '01 %02x 00 00 00 00 00 %02x ' $(($# - 1)) "$1"
    shift
    for sub in "$@"; do le32 "$sub"; done
}
count() { echo $#; }
ace() { printf '%02x %02x ' "$1" "$2" && le16 $((8 + $(count $4))) && le32 "$3" && echo "$4"; }
acl() { printf '02 00 ' && le16 $((8 + $(count $*))) && le16 $# && printf '00 00 ' && echo "$*"; }
sd() {
    control=$1 at=20 offsets=''
    shift
    for part in "$@"; do
        n=$(count ${part#null})
        if [ $n -gt 0 ]; then offsets="$offsets $(le32 $at)"; else offsets="$offsets 00 00 00 00"; fi
        at=$((at + n))
    done
    printf '01 00 ' && le16 $((control)) && echo "$offsets" ${1#null} ${2#null} ${3#null} ${4#null}
}
{ key R && end_key; } >frames.one
# shown BYTES..: what key -l shows of a hive with that descriptor
shown() {
    octets "$@" >sd
    rm -f sd.hive
    hive build --descriptor sd frames.one sd.hive >/dev/null && hive key -l sd.hive '' | sed -n 's/^key at 32 subkeys 0 values 0 written 1601-01-01T00:00:00.0000000Z security //p'
}
hexed() { echo "$*" | tr -d ' '; }
sddl() { try "security: $1" 0 "$2" '' shown $3; }
odd() { sddl "$1" "$(hexed $2)" "$2"; }
ba=$(sid 5 32 544) sy=$(sid 5 18) wd=$(sid 1 0)
sddl 'owner and group' O:BAG:SY "$(sd 0x8000 "$ba" "$sy" '' '')"
sddl 'a list' 'O:BAG:SYD:(A;CI;KA;;;SY)(D;OIIO;KR;;;WD)' "$(sd 0x8004 "$ba" "$sy" '' "$(acl "$(ace 0 2 0xf003f "$sy")" "$(ace 1 9 0x20019 "$wd")")")"
sddl 'both lists, and how they are kept' 'D:PAI(A;CIID;KW;;;BU)S:AR(AU;SAFA;0x10000000;;;WD)' \
    "$(sd 0x9614 '' '' "$(acl "$(ace 2 0xc0 0x10000000 "$wd")")" "$(acl "$(ace 0 0x12 0x20006 "$(sid 5 32 545)")")")"
sddl 'an empty list' D: "$(sd 0x8004 '' '' '' "$(acl)")"
sddl 'no list, and nothing is forbidden' D:NO_ACCESS_CONTROL "$(sd 0x8004 '' '' '' null)"
sddl 'other names' "O:S-1-5-21-1-4294967295-3-1001G:S-1-5-32-999" "$(sd 0x8000 "$(sid 5 21 1 4294967295 3 1001)" "$(sid 5 32 999)" '' '')"
sddl 'a name with no parts, and one with fifteen' 'O:S-1-9G:S-1-5-1-2-3-4-5-6-7-8-9-10-11-12-13-14-15' "$(sd 0x8000 "$(sid 9)" "$(sid 5 1 2 3 4 5 6 7 8 9 10 11 12 13 14 15)" '' '')"
sddl 'an authority of 48 bits' 'O:S-1-0x010000000005-7' "$(sd 0x8000 '01 01 01 00 00 00 00 05 07 00 00 00' '' '' '')"
for known in 'CO 3 0' 'AU 5 11' 'LS 5 19' 'NS 5 20' 'PU 5 32 547' 'RC 5 12' 'AC 15 2 1'; do
    sddl "$known" "O:${known%% *}" "$(sd 0x8000 "$(sid ${known#* })" '' '' '')"
done
# What is odd is hexadecimal, all of it.
odd 'another revision' "$(sd 0x8000 "$ba" '' '' '' | sed 's/^01/02/')"
odd 'not self-relative' "$(sd 0x0004 "$ba" '' '' "$(acl)")"
odd 'a bit of the control word that is not said' "$(sd 0xc000 "$ba" '' '' '')"
odd 'a list that is not said to be there' "$(sd 0x8000 '' '' '' "$(acl)")"
odd 'an entry of type 5' "$(sd 0x8004 '' '' '' "$(acl "$(ace 5 2 0xf003f "$sy")")")"
odd 'a flag that is not said' "$(sd 0x8004 '' '' '' "$(acl "$(ace 0 0x20 0xf003f "$sy")")")"
odd 'an entry with more behind it' "$(sd 0x8004 '' '' '' "$(acl "$(ace 0 2 0xf003f "$sy 00 00 00 00")")")"
odd 'a name with too many parts' "$(sd 0x8000 "$(sid 5 1 2 3 4 5 6 7 8 9 10 11 12 13 14 15 16)" '' '' '')"
odd 'an entry more than there are' "$(sd 0x8004 '' '' '' "$(acl "$(ace 0 2 1 "$sy")" | sed 's/^\(02 00 .. ..\) 01/\1 02/')")"
odd 'an entry of no bytes' "$(sd 0x8004 '' '' '' "$(acl '00 00 00 00 00 00 00 00')")"
odd 'an owner past the end' "01 00 00 80 ff ff ff ff 00 00 00 00 00 00 00 00 00 00 00 00"
odd 'a list past the end' "01 00 04 80 00 00 00 00 00 00 00 00 00 00 00 00 fe ff ff ff"
odd 'a list that ends past the end' "$(sd 0x8004 '' '' '' "$(acl)" | sed 's/02 00 08 00 00 00/02 00 09 00 00 00/')"
odd 'few bytes' '01'
odd 'nothing to say' "$(sd 0x8000 '' '' '' '')"
sddl 'room behind the entries' 'D:(A;;0x1;;;SY)' "$(sd 0x8004 '' '' '' "$(acl "$(ace 0 0 1 "$sy")" '00 00 00 00' | sed 's/^\(02 00 .. ..\) 02/\1 01/')")"
all=$(sd 0x8014 "$ba" "$sy" "$(acl "$(ace 2 0x40 1 "$wd")")" "$(acl "$(ace 0 2 2 "$sy")" "$(ace 1 0 3 "$ba")")")
cut='' wrong=''
for byte in $all; do
    [ -z "$cut" ] || [ "$(shown $cut)" = "$(hexed $cut)" ] || wrong="$wrong $(count $cut)"
    cut="$cut $byte"
done
right "security: cut anywhere it is hexadecimal ($wrong)" [ -z "$wrong" ]
sddl 'the whole of it' 'O:BAG:SYD:(A;CI;0x2;;;SY)(D;;0x3;;;BA)S:(AU;SA;0x1;;;WD)' "$all"

# Class names: a key is led to the data of its value, which the check does not see.
# classed LENGTH HEX..: the file classed, whose root has a class name of so many of these bytes
classed() {
    { key R && frame 11 03 00 00 00 02 00 00 00 76 00 "$@" && end_key; } >frames.classed
    rm -f classed
    hive build --descriptor sd frames.classed classed >/dev/null
    vk=$(hive ls --json classed | sed 's/.*"at":\([0-9]*\).*/\1/')
    dd if=classed of=classed bs=1 skip=$((4096 + vk + 4 + 8)) seek=$((4096 + 32 + 4 + 48)) count=4 conv=notrunc 2>/dev/null
    octets $(le16 $length) | dd of=classed bs=1 seek=$((4096 + 32 + 4 + 74)) conv=notrunc 2>/dev/null
}
octets $(sd 0x8000 "$ba" '' '' '') >sd
head='key at 32 subkeys 0 values 1 written 1601-01-01T00:00:00.0000000Z'
length=8
classed 53 00 68 00 22 00 1b 00
try 'class: a name' 0 "$head class \"Sh\\\"\\u001b\" security O:BA" '' hive key -l classed ''
try 'class: json' 0 '{"file":"classed","answer":"key","at":32,"subkeys":0,"values":1,"written":"1601-01-01T00:00:00.0000000Z","class":"Sh\"\u001b","security":"O:BA"}' '' hive key -l --json classed ''
try 'class: not without -l' 0 'key at 32' '' hive key classed ''
length=5
classed 53 00 68 00 22 00 1b 00
try 'class: an odd number of bytes' 0 "$head class 5300680022 security O:BA" '' hive key -l classed ''
try 'class: an odd number, json' 0 1 '' eval 'hive key -l --json classed "" | grep -c "\"class_hex\":\"5300680022\",\"security\""'
length=2
classed 3d d8 68 00 22 00 1b 00
try 'class: half of a pair, json' 0 1 '' eval 'hive key -l --json classed "" | grep -c "\"class\":\"$replaced\",\"security\":\"O:BA\",\"replaced\":true}"'
octets 04 00 00 00 | dd of=classed bs=1 seek=$((4096 + 32 + 4 + 48)) conv=notrunc 2>/dev/null
try 'class: it cannot be read' 0 "$head security O:BA" 'classed: its class name cannot be read: refused 11 at 4 (see: hive explain 11)' hive key -l classed ''
octets 0c 00 00 00 | dd of=classed bs=1 seek=$((4096 + 32 + 4 + 44)) conv=notrunc 2>/dev/null
try 'security: it cannot be read' 0 "$head" 'its security descriptor cannot be read: refused 11 at 12' hive key -l classed ''
try 'security: it cannot be read, json' 0 1 'refused 11 at 12' eval 'hive key -l --json classed "" | grep -c "\"class\":null,\"security\":null}"'
try 'security: of no bytes' 0 'key at 32 subkeys 0 values 0 written 1601-01-01T00:00:00.0000000Z' '' hive key -l minimal ''

# A key's descriptor as a file, and what build takes.
octets $all >all.sd
rm -f sd.hive with-all out.sd
hive build --descriptor all.sd frames.2 with-all >/dev/null
text='O:BAG:SYD:(A;CI;0x2;;;SY)(D;;0x3;;;BA)S:(AU;SA;0x1;;;WD)'
cp with-all with-all.before
try 'descriptor: as words' 0 "$text" '' hive descriptor with-all ControlSet001
try 'descriptor: the root' 0 "$text" '' hive descriptor with-all ''
try 'descriptor: json' 0 "{\"file\":\"with-all\",\"answer\":\"descriptor\",\"at\":32,\"length\":$(count $all),\"security\":\"$text\",\"hex\":\"$(hexed $all)\"}" '' hive descriptor --json with-all ''
try 'descriptor: to a file' 0 '' '' hive descriptor with-all Select out.sd
same 'descriptor: its bytes' out.sd all.sd
try 'descriptor: never over a file' 2 '' 'is not overwritten' hive descriptor with-all Select out.sd
raw_descriptor() { hive descriptor "$@" - >raw; }
try 'descriptor: raw' 0 '' '' raw_descriptor with-all Select
same 'descriptor: raw, its bytes' raw all.sd
try 'descriptor: raw, refused' 1 '' 'refused 17 at 0' raw_descriptor with-all Nothing
right 'descriptor: raw, refused, and standard output is empty' [ ! -s raw ]
try 'descriptor: raw, not to a terminal' 2 '' 'standard output: raw bytes are no text for a terminal; give OUT' on_terminal descriptor with-all '' -
rm -f again-all
try 'descriptor: for build' 0 "$(rm -f again-frames; hive export with-all again-frames >/dev/null; hive build --descriptor all.sd again-frames again-first)" '' hive build --descriptor out.sd again-frames again-all
same 'descriptor: the same hive again' again-all with-all
try 'descriptor: another reading of the path' 0 "$text" 'is read as ControlSet002\Services' hive descriptor with-all 'HKLM\SYSTEM\CurrentControlSet\Services'
try 'descriptor: no such key' 1 'refused 17 at 0' 'did you mean Select?' hive descriptor with-all Slect
rm -f out.sd
try 'descriptor: no such key, and no file' 1 'refused 17 at 0' 'did you mean Select?' hive descriptor with-all Slect out.sd
right 'descriptor: no file is left' [ ! -e out.sd ]
try 'descriptor: it cannot be read' 1 'refused 11 at 12' 'an offset leads to no cell in use, at offset 12' hive descriptor classed ''
try 'descriptor: a dirty hive' 1 'refused 7 at 0' 'differ' hive descriptor dirty a
try 'descriptor: as it is' 0 "$(hive descriptor sample a)" 'what its log held is missing' hive descriptor --as-is dirty a
try 'descriptor: with its log' 0 "$(hive descriptor sample a)" '' hive descriptor --log log spoilt a
try 'descriptor: a word is missing' 2 '' 'descriptor wants FILE PATH [OUT], and a word is missing' hive descriptor sample
try 'descriptor: a word too many' 2 '' 'is a word too many' hive descriptor sample a b c
same 'descriptor: reading changes nothing' with-all with-all.before
