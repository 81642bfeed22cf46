# A hive from frames: the verb, its errors, its descriptor, and the way back of the sample hives.

# bytes HEX..: each as a byte
bytes() { printf "$(printf '\\%03o' $(printf '0x%s ' "$@"))"; }
# A key, and an empty value, of a name of one character.
opens() { bytes 0a 00 00 00 10 00 00 00 00 00 00 00 00 00 "$1" 00; }
value() { bytes 0a 00 00 00 11 00 04 00 00 00 02 00 00 00 "$1" 00; }
closes() { bytes 00 00 00 00 12 00; }
unbuilt() { [ ! -e out ] && [ -z "$(ls -d out.part* 2>/dev/null)" ]; }

: >no-descriptor
{ opens 52; closes; } >smallest
try 'build: the smallest' 0 "$(printf '%s\n' 'built 8192' 'accepted bins 1 keys 1 values 0 used 240 free 3824')" '' hive build smallest built
try 'build: it is what check reads' 0 'accepted bins 1 keys 1 values 0 used 240 free 3824' '' hive check built
try 'build: exported again' 0 'exported frames 2 bytes 22' '' hive export built again
same 'build: the same frames' again smallest
empty_lines=$(printf '%s\n' 'built 8192' 'accepted bins 1 keys 1 values 0 used 112 free 3952')
try 'build: an empty descriptor, in front' 0 "$empty_lines" '' hive build --descriptor no-descriptor smallest built1
try 'build: in the middle' 0 "$empty_lines" '' hive build smallest --descriptor no-descriptor built2
try 'build: at the end' 0 "$empty_lines" '' hive build smallest built3 --descriptor no-descriptor
same 'build: the same hive' built1 built2
same 'build: the same hive again' built1 built3
head -c 3952 /dev/zero >zeros
try 'build: a descriptor that leaves no free cell' 0 "$(printf '%s\n' 'built 8192' 'accepted bins 1 keys 1 values 0 used 4064 free 0')" '' hive build --descriptor zeros smallest built4
try 'build: json' 0 "$(printf '%s\n' '{"file":"built5","answer":"built","bytes":8192}' '{"file":"built5","answer":"accepted","bins":1,"keys":1,"values":0,"used":240,"free":3824}')" '' \
    hive build --json smallest built5
same 'build: json, the same hive' built5 built
piped() { cat smallest | hive build "$@"; }
try 'build: frames from a pipe' 0 "$(printf '%s\n' 'built 8192' 'accepted bins 1 keys 1 values 0 used 240 free 3824')" '' piped - built6
try 'build: a descriptor from a pipe' 0 "$(printf '%s\n' 'built 8192' 'accepted bins 1 keys 1 values 0 used 136 free 3928')" '' piped --descriptor - smallest built7

# The example of docs/LAYOUT.md, to the byte: lines of bytes are the stream, those with a place before them the file.
sed -n '/^## Two keys/,/^## What other/s/^    //p' "$top/docs/LAYOUT.md" >page
grep -v '^[0-9a-f]*  ' page | while read -r line; do bytes $line; done >page.stream
head -c 8192 /dev/zero >page.file
grep '^[0-9a-f]*  ' page | while read -r place line; do bytes $line | dd of=page.file bs=1 seek=$((0x$place)) conv=notrunc 2>/dev/null; done
try "build: the page's example" 0 "$(printf '%s\n' 'built 8192' 'accepted bins 1 keys 2 values 1 used 272 free 3792')" '' hive build --descriptor no-descriptor page.stream example
same "build: the page's bytes" example page.file

# The descriptor where none is given, from the hive's security item: each part of it is read by its own lengths, and they fill it.
dd if=built of=descriptor bs=1 skip=$((4096 + 120 + 4 + 20)) count=124 2>/dev/null
od -An -v -tu1 -w1 descriptor | awk '
    { b[n++] = $1 }
    function u16(i) { return b[i] + 256 * b[i + 1] }
    function u32(i) { return u16(i) + 65536 * u16(i + 2) }
    function sid(i,   s, k) { s = "S-" b[i] "-" 256 * b[i + 6] + b[i + 7]; for (k = 0; k < b[i + 1]; k++) s = s "-" u32(i + 8 + 4 * k); end = i + 8 + 4 * k; return s }
    END {
        printf "revision %d control %x sacl %d\n", b[0], u16(2), u32(12)
        at = u32(16); printf "dacl at %d revision %d size %d aces %d\n", at, b[at], u16(at + 2), u16(at + 4)
        stop = at + u16(at + 2); count = u16(at + 4); at += 8
        for (k = 0; k < count; k++) { printf "type %d flags %d mask %x %s", b[at], b[at + 1], u32(at + 4), sid(at + 8); print end == at + u16(at + 2) ? "" : " does not fit"; at += u16(at + 2) }
        print at == stop ? "all of it" : "not all of it"
        printf "owner at %d %s", u32(4), sid(u32(4)); print " to " end
        printf "group at %d %s", u32(8), sid(u32(8)); print " to " end " of " n
    }' >apart
cat >wanted <<'END'
revision 1 control 8004 sacl 0
dacl at 20 revision 2 size 76 aces 3
type 0 flags 2 mask f003f S-1-5-18
type 0 flags 2 mask f003f S-1-5-32-544
type 0 flags 2 mask 20019 S-1-5-32-545
all of it
owner at 96 S-1-5-32-544 to 112
group at 112 S-1-5-18 to 124 of 124
END
same 'build: the descriptor where none is given' apart wanted
sed -n '/^## The descriptor where none/,$s/^    //p' "$top/docs/LAYOUT.md" | while read -r line; do bytes $line; done >page.descriptor
same "build: the page's descriptor" descriptor page.descriptor
try 'build: the same by the option' 0 "$(printf '%s\n' 'built 8192' 'accepted bins 1 keys 1 values 0 used 240 free 3824')" '' hive build --descriptor descriptor smallest built8
same 'build: by the option, the same hive' built8 built

# Each refusal: its line, its words as explain has them, the byte, and that nothing is written.
# unbuilt_by NAME NUMBER BYTE, of the file `bad`
unbuilt_by() {
    words=$(hive explain "$2" | sed "s/^$2: //; s/\. .*//")
    try "build: $1" 1 "refused $2 at $3" "hive: bad: $words, at byte $3 ($(printf '0x%x' "$3")) of the stream" hive build bad out
    right "build: $1, and nothing is written" unbuilt
}
: >bad
unbuilt_by 'no frame' 32 0
cat smallest smallest >bad
unbuilt_by 'a second root' 32 22
opens 52 >bad
unbuilt_by 'a key stays open' 32 16
right 'build: which is the end' grep -qF 'of the stream, its end (see: hive explain 32)' stderr
head -c 21 smallest >bad
unbuilt_by 'cut' 30 16
{ opens 52; bytes 00 00 00 00 13 00; closes; } >bad
unbuilt_by 'an unknown kind' 30 16
{ opens 52; opens 61; closes; value 76; closes; } >bad
unbuilt_by 'a late value' 31 38
{ opens 52; opens 62; closes; opens 41; closes; closes; } >bad
unbuilt_by 'not sorted' 33 38
{ opens 52; opens 62; closes; opens 42; closes; closes; } >bad
unbuilt_by 'siblings of one name' 33 38
{ opens 52; value 76; value 56; closes; } >bad
unbuilt_by 'values of one name' 34 32
{ opens 5c; closes; } >bad
unbuilt_by 'a backslash' 35 0
{ opens 52; bytes 0b 00 10 00 11 00 03 00 00 00 02 00 00 00 76 00; head -c 1048577 /dev/zero; closes; } >bad
unbuilt_by 'a byte too much' 36 16
level=0
while [ "$level" -lt 514 ]; do
    opens 64
    level=$((level + 1))
done >bad
unbuilt_by 'level 513' 37 $((513 * 16))
bytes 00 >bad
try 'build: refused, json' 1 '{"file":"bad","answer":"refused","number":30,"place":null,"key":null,"byte":0,"words":"a frame is not laid out as one, at byte 0 (0x0) of the stream"}' '' hive build --json bad out
dd if=/dev/zero of=huge bs=1 count=0 seek=2147479409 2>/dev/null
try 'build: longer than a hive can be' 1 'refused 39 at 0' 'hive: smallest: the hive would be longer than a hive can be (see: hive explain 39)' hive build --descriptor huge smallest out
try 'build: longer, json' 1 '{"file":"smallest","answer":"refused","number":39,"place":null,"key":null,"byte":null,"words":"the hive would be longer than a hive can be"}' '' \
    hive build --json --descriptor huge smallest out
right 'build: longer, and nothing is written' unbuilt
rm huge
try 'build: a hive is no stream' 1 'refused 30 at 0' 'at byte 0 (0x0) of the stream' hive build sample out

try 'build: never over a file' 2 '' 'built: a file of this name is there already and is not overwritten' hive build smallest built
same 'build: which stays' built built8
try 'build: no frames' 2 '' 'hive: nothing: No such file' hive build nothing out
try 'build: no descriptor' 2 '' 'hive: nothing: No such file' hive build --descriptor nothing smallest out
try 'build: no folder' 2 '' 'No such file' hive build smallest nowhere/out
try 'build: a word too few' 2 '' 'build wants FRAMES OUT, and a word is missing; see: hive --help' hive build smallest
try 'build: a word too many' 2 '' 'build wants FRAMES OUT, and "x" is a word too many; see: hive --help' hive build smallest out x
try 'build: no file behind the option' 2 '' '--descriptor wants a FILE behind it' hive build smallest out --descriptor
try 'build: not of another verb' 2 '' 'export takes no --descriptor' hive export --descriptor no-descriptor minimal out
try 'build: no log' 2 '' 'build takes no --log' hive build --log log smallest out
try 'build: both from a pipe' 2 '' 'FRAMES and the descriptor cannot both be standard input' piped --descriptor - - out
right 'build: nothing was written for that' unbuilt
built_out() { hive build "$@" - >stream; }
try 'build: to standard output' 0 '' 'built 8192' built_out smallest
right 'build: to standard output, its lines' [ "$(cat stderr)" = "$(printf '%s\n' 'built 8192' 'accepted bins 1 keys 1 values 0 used 240 free 3824')" ]
same 'build: to standard output, the same hive' stream built
try 'build: to standard output, json' 0 '' '{"file":"-","answer":"built","bytes":8192}' built_out --json smallest
same 'build: to standard output, json, the same hive' stream built
try 'build: to standard output, refused' 1 '' 'refused 30 at 0' built_out sample
right 'build: to standard output, refused, and it is empty' [ ! -s stream ]
through() { cat smallest | hive build - - 2>/dev/null | hive check -; }
try 'build: a pipe on either side' 0 'accepted bins 1 keys 1 values 0 used 240 free 3824' '' through
try 'build: not to a terminal' 2 '' "standard output: a hive's bytes are no text for a terminal; give OUT" on_terminal build smallest -
full_build() { hive build smallest - >/dev/full; }
try 'build: to standard output, no room' 2 '' 'standard output: it cannot be written' full_build
right 'build: to standard output, no room, and nothing more is said' [ "$(wc -l <stderr)" -eq 1 ]
right 'build: no file is called -' [ ! -e ./- ]

# The file has another name until it is whole and on the disk: cut after its write, after its sync, after that of its folder; and a write or a sync that fails.
cut_off() { HIVE_CUT=$cut hive_cut build smallest out; }
for cut in 1 2; do
    try "build: cut after $cut" 99 '' '' cut_off
    right "build: cut after $cut, and it has not its name" [ ! -e out ]
done
cut=3
try 'build: cut after its folder is synced' 99 '' '' cut_off
same 'build: then it is whole' out built
rm out out.part*
failing_build() { HIVE_FAIL=$fail hive_cut build smallest out; }
for fail in 1 2; do
    try "build: write or sync $fail fails" 2 '' 'Input/output error' failing_build
    right "build: write or sync $fail fails, and nothing is left" unbuilt
done

for number in 30 31 32 33 34 35 36 37 38 39; do
    right "explain: $number" eval 'hive explain $number | grep -qE "^$number: [a-z][^.]*\. [A-Z].*\.\$"'
done
try 'explain: longer than a hive can be' 0 '39: the hive would be longer than a hive can be. Its bins data would have more than 2147479552 bytes. No frame is at fault.' '' hive explain 39
try 'explain: a backslash' 0 "35: a name is not possible. A key's name has 1 to 255 characters and no backslash, a value's at most 16383 characters. The place is a byte of the stream: where that frame starts, or the stream ends." '' hive explain 35
try 'explain: one root' 0 "32: the stream is not one root key that opens and closes. A value or a closing stands outside of any key, a frame follows the root's closing, or the stream ends while a key is open, or has no frame. The place is a byte of the stream: where that frame starts, or the stream ends." '' hive explain 32

# There and back: what is built has the frames of the hive that was exported, and as many keys and values.
counts_of() { hive check "$1" | sed 's/.* \(keys [0-9]* values [0-9]*\) .*/\1/'; }
for file in minimal letters notation sources sample reg deep wide longest left; do
    rm -f there there.hive back
    hive export "$file" there >/dev/null
    hive build there there.hive >/dev/null
    hive export there.hive back >/dev/null
    same "build: $file, there and back" there back
    right "build: $file, its keys and values" [ "$(counts_of "$file")" = "$(counts_of there.hive)" ]
done
