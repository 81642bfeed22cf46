# The notation of names: what is printed can be given back.

try 'names: random ones' 0 '120000 names and paths read back' '' run "$out/notation"
try 'names: keys and values' 0 "$(printf '%s\n' 'key \\x1b[2J' "$(printf 'key n\303\251')" "$(printf 'key \346\211\241')" \
    'value REG_BINARY 1 \x40' 'value 0x1234 6 a\x0ab' "$(printf 'value REG_BINARY 0 \346\211\241')" 'value REG_SZ 2 A\x0aB')" '' hive ls names
try 'names: escapes' 0 "$(printf '%s\n' 'key \\x07' 'key @' 'value REG_DWORD 4 @' 'value REG_DWORD 4 \x40' 'value REG_DWORD 4 a\\b' 'value REG_DWORD 4 \\x41' \
    'value REG_DWORD 4 C:\\u0041' 'value REG_DWORD 4 ab\x07' 'value REG_DWORD 4 \ufeff\ud83d' 'value REG_DWORD 4 n\x00' \
    "$(printf 'value REG_DWORD 4 \360\237\230\200\\x0a')")" '' hive ls notation
try 'names: escapes of keys' 0 "$(printf '%s\n' 'key \\u202ex\\u2028' 'key \\ud83dg')" '' hive ls notation @

# Each value of a key is asked for by its printed name, and its number is its place in the list.
n=0
hive ls notation | sed -n 's/^value REG_DWORD 4 //p' >printed
while IFS= read -r name; do
    try "names: value $n is $name" 0 "$n (0x$n)" '' hive value notation '' "$name"
    n=$((n + 1))
done <printed
right 'names: all nine' [ "$n" -eq 9 ]
hive ls --json notation @ | sed 's/.*"at":\([0-9]*\).*/key at \1/' >wanted
hive ls notation @ | sed 's/^key //' >printed
while IFS= read -r name; do hive key notation "@\\$name"; done <printed >found
same 'names: keys are found by what is printed' found wanted
try 'names: a doubled backslash before them' 0 "$(tail -n 1 wanted)" '' hive key notation '\\@\\\\ud83dg'
try 'names: a single backslash separates, whatever follows' 1 'refused 17 at 0' 'notation: there is no such key, in key \ (at 32): the root has no subkey x07' hive key notation '\x07'
try 'names: and a missing one is told so' 1 'refused 17 at 0' '@\\\ud83dg has no subkey \\x1b' hive key notation '@\\\ud83dg\\\x1b'
try 'names: no key holds a backslash' 2 '' "no key's name holds a backslash" hive key notation 'a\\x5cb'
try 'names: a single backslash in a value' 2 '' "a backslash in a value's name is doubled" hive value notation '' 'a\b'
try 'names: json' 0 "$(printf '%s\n' '{"file":"notation","answer":"key","at":296,"name":"\u202ex\u2028"}' \
    '{"file":"notation","answer":"key","at":384,"name":"'"$replaced"'g","notation":"\\\\ud83dg","replaced":true}')" '' hive ls --json notation @
