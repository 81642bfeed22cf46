# The check, what it reads, usage, explanations, and the example.

try 'check: the minimal hive' 0 'accepted bins 1 keys 1 values 0 used 112 free 3952' '' hive check minimal
try 'check: letters past z' 0 'accepted bins 1 keys 5 values 0 used 504 free 3560' '' hive check letters
try 'check: cut short' 1 'refused 6 at 0' 'cut: the file ends before its bins do' hive check cut
try 'check: a record' 1 'refused 12 at 32' 'at offset 32 (0x20), which is byte 4128 (0x1020) of the file' hive check no-root
application='ControlSet001\Services\EventLog\Application'
try 'check: in a key' 1 'refused 11 at 848' "which is byte 4944 (0x1350) of the file, in key \\$application\\Esc (at 760) (see" hive check free-values
try 'check: a child that is none' 1 'refused 12 at 912' "of the file, in key \\$application (at 440) (see" hive check no-child
try 'check: a key that is its own parent' 1 'refused 14 at 912' 'of the file, in key (at 912) (see' hive check own-parent
try 'check: further from the root than a tree is deep' 1 'refused 15 at 53368' 'in key (at 53368) (see' hive check chain
try 'check: no security item' 1 'refused 28 at 32' 'at offset 32 (0x20), which is byte 4128 (0x1020) of the file, in key \ (at 32) (see' hive check no-item
try 'check: a count of a security item' 1 'refused 28 at 1040' 'the security items of the keys do not fit together, at offset 1040 (0x410), which is byte 5136 (0x1410) of the file, in key \ (at 32) (see' hive check wrong-count
try 'check: a key off the ring' 1 'refused 28 at 760' "of the file, in key \\$application\\Esc (at 760) (see" hive check off-ring
try 'check: off the ring, and read all the same' 0 'key at 760' '' hive key off-ring "$application\Esc"
try 'check: two values of one name' 1 'refused 29 at 520' 'a key has two values of one name, at offset 520 (0x208), which is byte 4616 (0x1208) of the file, in key \ (at 32) (see' hive check names
try 'check: a wrong hint' 1 'refused 13 at 208' 'or its hash or hint is wrong, at offset 208 (0xd0), which is byte 4304 (0x10d0) of the file, in key \beta (at 208) (see' hive check wrong-hint
try 'check: a wrong hint, and found all the same' 0 'key at 208' '' hive key wrong-hint Beta
try 'check: no key yet' 1 'refused 12 at 32' 'of the file (see' hive check no-root
try 'check: not finished' 1 'refused 7 at 0' 'give its log with --log, or repair it' hive check spoilt
try 'check: no file' 2 '' 'hive: nothing: No such file' hive check nothing
try 'check: a directory' 2 '' 'is a directory' hive check .
try 'check: an empty file' 1 'refused 1 at 0' 'fewer than 4096 bytes' hive check empty
try 'check: 5 GiB' 2 '' "vast: it has more than 4294967296 bytes, which is this tool's limit" hive check vast
try 'check: no hive' 1 'refused 2 at 0' 'regf' hive check "$out/hive"
try 'check: many' 2 "$(printf '%s\n' 'minimal: accepted bins 1 keys 1 values 0 used 112 free 3952' 'cut: refused 6 at 0' 'empty: refused 1 at 0')" \
    'hive: nothing: No such file' hive check minimal cut nothing empty
try 'check: the worst of many' 1 "$(printf '%s\n' 'cut: refused 6 at 0' 'minimal: accepted bins 1 keys 1 values 0 used 112 free 3952')" 'cut: the file' hive check cut minimal
cp minimal "$(printf 'odd\033[2J\377')"
try 'check: a name that gives orders' 0 "$(printf '%s\n' 'odd\x1b[2J\xff: accepted bins 1 keys 1 values 0 used 112 free 3952' \
    'minimal: accepted bins 1 keys 1 values 0 used 112 free 3952')" '' hive check odd* minimal
try 'check: no file of such a name' 2 '' 'hive: no\x0ane: No such file' hive check "$(printf 'no\nne')"

from_input() { hive "$@" <sample; }
from_pipe() { cat sample | hive "$@"; }
try 'check: standard input' 0 "$(hive check sample)" '' from_input check -
try 'check: a pipe' 0 "$(hive check sample)" '' from_pipe check -
try 'check: a pipe by its name' 0 "$(hive check sample)" '' from_pipe check /dev/stdin
try 'check: standard input, twice' 2 '' 'standard input is read once, and - stands for it more than once' from_input check - -
try 'check: standard input, twice among others' 2 '' 'standard input is read once' from_input check minimal - sample -
try 'check: standard input, among others' 0 "$(hive check sample minimal | sed 's/^sample/-/')" '' from_input check - minimal
try 'key: a pipe' 0 "$(hive key sample "$print")" '' from_pipe key - "$print"
try 'repair: no pipe' 2 '' 'not standard input' from_pipe repair - log
try 'repair: no pipe for a log' 2 '' 'not standard input' from_pipe repair spoilt -

try 'json: accepted' 0 '{"file":"minimal","answer":"accepted","bins":1,"keys":1,"values":0,"used":112,"free":3952}' '' hive check --json minimal
try 'json: many' 2 "$(printf '%s\n' '{"file":"nothing","answer":"trouble","words":"No such file or directory"}' \
    '{"file":"no-root","answer":"refused","number":12,"place":32,"key":null,"words":"a record in a cell is wrong or does not fit its cell, at offset 32 (0x20), which is byte 4128 (0x1020) of the file"}' \
    '{"file":"cut","answer":"refused","number":6,"place":null,"key":null,"words":"the file ends before its bins do"}')" 'nothing: No such' hive check --json nothing no-root cut
try 'json: a word too few' 2 "$(wrong 'key wants FILE PATH, and a word is missing')" 'hive: key wants FILE PATH, and a word is missing' hive key --json sample
try 'json: an option that is none' 2 "$(wrong 'ls: --fast is no option (-- ends the options)')" '--fast is no option' hive ls --fast sample --json
try 'json: no verb' 2 "$(wrong '\"chekc\" is none of check, info, key, ls, keys, value, descriptor, export, build, reg, dump, deleted, repair and explain; did you mean check?')" 'none of check' hive chekc --json sample
try 'json: no number' 2 "$(wrong '--nth wants a number from 1 on, not \"0\"')" '--nth wants' hive value --json --nth 0 sample '' x
try 'json: a path that is none' 2 "$(wrong "this is not UTF-8: $replaced" | sed 's/}$/,"replaced":true}/')" 'this is not UTF-8' hive key --json sample "$(printf '\377')"
try 'json: standard input twice' 2 "$(wrong 'FILE and LOG cannot both be standard input')" 'cannot both' hive check --json --log - -
try 'json: not behind --' 2 '' 'key wants FILE PATH, and "x" is a word too many' hive key -- sample --json x
try "json: not an option's word" 0 "$(hive check sample)" 'is kept in --json' eval 'cp spoilt file && hive repair --backup --json file log | tail -n 1'
rm -f ./--json
try 'json: a name that is no UTF-8' 0 '{"file":"odd\u001b[2J'"$replaced"'","answer":"accepted","bins":1,"keys":1,"values":0,"used":112,"free":3952,"replaced":true}' '' hive check --json odd*
rm odd*

try 'explain' 0 "17: there is no such key. Letters a to z, and the accented letters of Western Europe, are the same in either case; others must be given as they are." '' hive explain 17
try 'explain: the order' 0 "13: a key stands out of order, or its hash or hint is wrong. Subkeys stand in the order of their names with a to z, and the accented letters of Western Europe, as capitals, none twice; an lh list holds each name's hash, an lf list its first four characters as a hint (a byte 0 first where one of them does not fit a byte). Windows may not find this key." '' hive explain 13
try 'explain: the checksum' 0 "3: the checksum of the base block is wrong. The word at byte 508 is not the XOR of the 127 words before it, with 0 stored as 1 and 0xFFFFFFFF as 0xFFFFFFFE: the first sector was changed or half written. A log may repair it: hive repair FILE, with its logs beside it." '' hive explain 3
try 'explain: security' 0 "28: the security items of the keys do not fit together. At the place is the root, whose own item is none; or an item that has no room for its descriptor, whose forward link leads to no item that links back, or whose count is not the number of keys that name it; or a key whose item is not on the ring that starts at the root's. Windows does not load such a hive; its keys and values can be read here." '' hive explain 28
try 'explain: two values of one name' 0 "29: a key has two values of one name. At the place is the second of them: its name is that of a value earlier in the key's list, with a to z, and the accented letters of Western Europe, as capitals. Who asks for that name gets the first and never the second; hive value --nth 2 reads it." '' hive explain 29
try 'explain: no number' 2 '' 'from 1 to 39' hive explain 40
try 'usage: nothing' 2 '' 'a verb is wanted: check, info, key, ls, keys, value, descriptor, export, build, reg, dump, deleted, repair or explain; see: hive --help' hive
try 'usage: no verb' 2 '' '"chekc" is none of check, info, key, ls, keys, value, descriptor, export, build, reg, dump, deleted, repair and explain; did you mean check?; see: hive --help' hive chekc a
try 'usage: a word too few' 2 '' 'key wants FILE PATH, and a word is missing; see: hive --help' hive key sample
try 'usage: a word too many' 2 '' 'key wants FILE PATH, and "b" is a word too many; see: hive --help' hive key sample a b
try 'usage: an unknown option' 2 '' 'repair: --fast is no option' hive repair --fast spoilt log
try "usage: another verb's option" 2 '' 'check takes no --backup' hive check --backup x sample
try 'usage: an option without its word' 2 '' '--log wants a LOG behind it' hive check sample --log
try 'usage: one log, many files' 2 '' 'check --log wants one FILE' hive check --log log spoilt spoilt
try 'usage: no number' 2 '' '--nth wants a number from 1 on, not "0"' hive value --nth 0 sample "$print" Big
try 'usage: a file that looks like an option' 2 '' 'hive: -x: No such file' hive check -- -x
try 'usage: it is one line' 2 '' 'see: hive --help' hive chekc
right 'usage: one line' [ "$(wc -l <stderr)" -eq 1 ]
try 'usage: --help' 0 "$(cat "$top/host/help.txt")" '' hive --help
try 'usage: --version' 0 "hive $(cat "$top/VERSION")" '' hive --version
full() { hive "$@" >/dev/full; }
try 'an answer that cannot be written' 2 '' 'cannot write the answer' full check sample
