# Keys, lists of what they hold, values.

cp sample sample.before
try 'key: the root' 0 'key at 32' '' hive key minimal ''
try 'key: the root by a backslash' 0 'key at 32' '' hive key minimal '\'
try 'key: the root by a doubled backslash' 0 'key at 32' '' hive key minimal '\\'
at=$(hive key sample "$print")
try 'key: lower case' 0 "$at" '' hive key sample 'controlset001\services\EVENTLOG\application\print'
try 'key: doubled backslashes' 0 "$at" '' hive key sample 'ControlSet001\\Services\\EventLog\\Application\\Print'
try 'key: one in front' 0 "$at" '' hive key sample "\\$print"
try 'key: two in front' 0 "$at" '' hive key sample "\\\\$print"
try 'key: three in front' 1 'refused 16 at 0' 'the path is not possible' hive key sample "\\\\\\$print"
try 'key: two parts too few at the end' 1 'refused 16 at 0' 'the path is not possible (see' hive key sample 'a\\\'
try 'key: letters past z' 0 'key at 296' '' hive key letters "$(printf '\303\251DITEUR')"
try 'key: a capital past the byte' 0 'key at 384' '' hive key letters "$(printf '\305\270')"
try 'key: none' 1 'refused 17 at 0' 'there is no such key, in key \a (at 120): a has no subkey k9 (see' hive key sample 'a\k9'
try 'key: none at the root' 1 'refused 17 at 0' 'the root has no subkey c' hive key sample 'c\k9\x'
try 'key: none further down' 1 'refused 17 at 0' 'ControlSet001\Services has no subkey Event' hive key sample 'ControlSet001\Services\Event\Application'
# The key that is named is counted up to the root; where its parent fields do not agree with the path less is said, and nothing is searched again.
try 'key: none below keys of one name' 1 'refused 17 at 0' ': n\n\n has no subkey x (see' hive key deep 'n\n\n\x\y'
try 'key: none, and no way up' 1 'refused 17 at 0' 'there is no such key, in key (at 912) (see' hive key own-parent "$application\\$(printf '\303\251')\x"
try 'key: none, and a way up that is not the way down' 1 'refused 17 at 0' 'there is no such key, in key \n (at 328) (see' hive key liar 'n\n\n\x'
try 'key: a path of a machine' 1 'refused 17 at 0' "a path starts below the hive's own root" hive key sample 'HKCR\ControlSet001'
try 'key: a long path of a machine' 1 'refused 17 at 0' "a path starts below the hive's own root" hive key sample '\hkey_local_machine'
try 'key: json' 1 '{"file":"sample","answer":"refused","number":17,"place":null,"key":32,"words":"there is no such key: the root has no subkey \"x\""}' '' hive key --json sample '"x"'
try 'key: not UTF-8' 2 '' 'this is not UTF-8: \xff; see' hive key sample "$(printf 'a\377')"
try 'ls: the root' 0 "$(printf 'key a\nkey b\nkey ControlSet001\nkey d')" '' hive ls sample
try 'ls: a list of three leaves' 0 "$(printf 'key k%s\n' 1 2 3 4 5 6 7)" '' hive ls sample A
try 'ls: nothing in it' 0 '' '' hive ls sample b
try 'ls: values' 0 "$(printf 'value %s\n' 'REG_EXPAND_SZ 38 EventMessageFile' 'REG_SZ 6 @' 'REG_DWORD 4 TypesSupported' 'REG_DWORD_BIG_ENDIAN 4 Big' \
    'REG_QWORD 8 Long' 'REG_MULTI_SZ 18 Several' 'REG_SZ 4 Pair' 'REG_BINARY 33 Bytes' 'REG_BINARY 40000 Large' 'REG_BINARY 0 Empty')" '' hive ls sample "\\$print"
try 'ls: when keys were written' 0 "$(printf '%s\n' 'key 2024-02-29T23:59:59.1234567Z Bin' 'key 1601-01-01T00:00:00.0000000Z Esc' "$(printf 'key +60056-05-28T05:36:10.9551615Z \303\251')")" \
    '' hive ls -l sources 'ControlSet001\Services\EventLog\Application'
try 'ls: when, as json' 0 '{"file":"minimal","answer":"key","at":32,"subkeys":0,"values":0,"written":"1601-01-01T00:00:00.0000000Z","class":null,"security":""}' '' hive key -l --json minimal ''
try 'key: its counts, and when it was written' 0 'key at 32 subkeys 4 values 0 written 1601-01-01T00:00:00.0000000Z' '' hive key -l sample ''
try 'ls: no such key' 1 'refused 17 at 0' 'the root has no subkey nobody' hive ls sample nobody
try 'ls: a key that is none' 1 "$(printf '%s\n' 'key \\x1b[2J' 'refused 11 at 40')" ', in key \ (at 32) (see' hive ls bad-key
try 'ls: data that are not there' 1 "$(hive ls names | head -n 6 && echo refused 12 at 120)" 'does not fit its cell' hive ls bad-value
try 'value: expanded string' 0 "$(printf '%%SystemRoot%%\\\303\251.dll')" '' hive value sample "$print" EventMessageFile
try 'value: unnamed' 0 xy '' hive value sample "$print" @
try 'value: no unnamed one' 1 'refused 18 at 0' 'no such value' hive value names '' @
try 'value: number' 0 '7 (0x7)' '' hive value sample "$print" typessupported
try 'value: big-endian number' 0 '258 (0x102)' '' hive value sample "$print" Big
try 'value: long number' 0 '9223372036854775809 (0x8000000000000001)' '' hive value sample "$print" Long
try 'value: several strings' 0 "$(printf 'one\ntwo')" '' hive value sample "$print" Several
try 'value: an empty string among them' 0 "$(printf 'a\n\nb')" '' hive value texts '' inner
try 'value: the last without its end' 0 "$(printf 'a\nb')" '' hive value texts '' open
try 'value: a byte too many' 0 "$(printf 'a\nb\nff')" 'the last byte of the data is no part of a string' hive value texts '' odd
try 'value: no string' 0 '' '' hive value texts '' none
try 'value: no string is no line' 0 0 '' lines value texts '' none
try 'value: an empty string is a line' 0 1 '' lines value texts '' empty
try 'value: text that gives orders, to a pipe' 0 "$(printf '\033c')" '' hive value texts '' order
try 'value: text that gives orders, to a terminal' 0 '\x1bc' '' on_terminal value texts '' order
try 'value: half of a pair' 0 '\ud83d!' '' hive value texts '' half
try 'value: json' 0 '{"file":"sample","answer":"data","type":"REG_MULTI_SZ","length":18,"hex":"6f006e0065000000740077006f0000000000","strings":["one","two"]}' '' hive value --json sample "$print" Several
try 'value: json of a number' 0 '{"file":"sample","answer":"data","type":"REG_DWORD","length":4,"hex":"07000000"}' '' hive value --json sample "$print" TypesSupported
try 'value: json of half of a pair' 0 '{"file":"texts","answer":"data","type":"REG_SZ","length":6,"hex":"3dd821000000","strings":["'"$replaced"'!"],"replaced":true}' '' hive value --json texts '' half
try 'value: a pair' 0 "$(printf '\360\237\230\200')" '' hive value sample "$print" Pair
try 'value: bytes' 0 "$(printf '00070e151c232a31383f464d545b626970777e858c939aa1a8afb6bdc4cbd2d9\ne0')" '' hive value sample "$print" Bytes
try 'value: nothing in it' 0 '' '' hive value sample "$print" Empty
try 'value: the first of one name' 0 '78797a78797a' '' hive value names '' 'a\x0aB'
try 'value: the first of one name, by number' 0 '78797a78797a' '' hive value --nth 1 names '' 'a\x0aB'
try 'value: the second of one name' 0 x '' hive value --nth 2 names '' 'a\x0ab'
try 'value: no third' 1 'refused 18 at 0' 'no such value' hive value --nth 3 names '' 'a\x0ab'
for name in @ EventMessageFile bytes Large Empty; do
    try "value: $name by number as by name" 0 "$(hive value sample "$print" $name)" '' hive value --nth 1 sample "$print" $name
done
try 'value: an accented letter is one name in either case' 0 '1 (0x1)' '' hive value --nth 1 texts '' "$(printf '\303\211')"
try 'value: an accented letter, by name too' 0 '1 (0x1)' '' hive value texts '' "$(printf '\303\211')"
try 'value: the second of them' 0 '2 (0x2)' '' hive value --nth 2 texts '' "$(printf '\303\251')"
try 'value: no third of them' 1 'refused 18 at 0' 'no such value' hive value --nth 3 texts '' "$(printf '\303\251')"
try 'value: by number, no such key' 1 'refused 17 at 0' 'the root has no subkey nobody' hive value --nth 2 sample nobody x
try 'value: by number, data that are not there' 1 'refused 12 at 120' 'does not fit' hive value --nth 2 bad-value '' 'a\x0ab'
try 'value: no such value' 1 'refused 18 at 0' "the key has no such value, in key \\$print (at ${at#key at }) (see" hive value sample "$print" nobody
try 'value: to a file' 0 '' '' hive value sample "$print" Large large
right 'value: all of it' [ "$(wc -c <large)" -eq 40000 ]
hive value sample "$print" Large - >raw
same 'value: raw to standard output' raw large
raw_value() { hive value "$@" - >raw; }
try 'value: raw, refused' 1 '' 'refused 18 at 0' raw_value sample "$print" nobody
right 'value: raw, refused, and standard output is empty' [ ! -s raw ]
try 'value: raw, json' 1 '' '"answer":"refused","number":18' raw_value --json sample "$print" nobody
try 'value: raw, by number' 0 '' '' raw_value --nth 1 sample "$print" Large
same 'value: raw, by number, the same' raw large
try 'value: raw, not to a terminal' 2 '' 'standard output: raw bytes are no text for a terminal; give OUT' on_terminal value texts '' order -
full_value() { hive value "$@" - >/dev/full; }
try 'value: raw, no room' 2 '' 'standard output: it cannot be written' full_value sample "$print" Large
right 'value: no file is called -' [ ! -e ./- ]
right 'value: nothing is left beside it' [ "$(echo large*)" = large ]
try 'value: never over a file' 2 '' 'is not overwritten' hive value sample "$print" Large sample
ln -s nowhere dangling
try 'value: never over a link to nothing' 2 '' 'is not overwritten' hive value sample "$print" Large dangling
try 'value: no such folder' 2 '' 'No such file' hive value sample "$print" Large none/large
same 'reading changes nothing' sample sample.before

rm -f trace
traced check sample
traced key sample a
traced ls --json sample a
traced value sample "$print" Big
traced repair --dry-run spoilt log
for verb in 'check spoilt' 'key spoilt a' 'ls spoilt a' "value spoilt $print Big"; do traced $verb --log log; done
right 'reading opens no file for writing' [ "$(grep -c '^open 0 ' trace) $(grep -cv '^open 0 ' trace)" = '14 0' ]

example() { run "$out/event_source" "$@"; }
try 'example' 0 "$(printf '%%SystemRoot%%\\\303\251.dll')" '' example sample Print
try 'example: no such source' 1 '' 'refused 17' example sample Nobody
try 'example: not finished' 1 '' 'refused 7' example spoilt Print
try 'example: with its log' 0 "$(printf '%%SystemRoot%%\\\303\251.dll')" '' example spoilt Print log
try 'example: not its log' 1 '' 'refused 22' example spoilt Print short-log
try 'example: not sound' 1 '' 'refused 12 at 32' example no-root Print
try 'example: no text' 2 '' 'is no text' example sources Bin
try 'example: text that gives orders, of a source in UTF-8' 0 '\x1bc' '' example sources "$(printf '\303\251')"
try 'example: a path is no name' 2 '' 'no event source is called so' example sources 'Esc\x'
try 'example: not UTF-8' 2 '' 'no event source is called so' example sources "$(printf '\351')"
