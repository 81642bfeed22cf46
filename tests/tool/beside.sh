# The logs beside a hive: which are taken where none is named, and that one which is named does not lose another.

# lay NAME LOG1 LOG2 LOG: a folder with a hive of that name and those logs beside it; - for none
lay() {
    rm -rf beside
    mkdir beside
    cp spoilt "beside/$1"
    [ "$2" = - ] || cp "$2" "beside/$1.LOG1"
    [ "$3" = - ] || cp "$3" "beside/$1.LOG2"
    [ "$4" = - ] || cp "$4" "beside/$1.LOG"
}
said() { right "$1" grep -qF -- "$2" stderr; }
repairs=$(printf 'would repair 8\n%s' "$sound")

# None is named.
lay S new-log1 new-log2 log
try 'beside: both logs' 0 "$repairs" 'beside/S: its logs beside it: beside/S.LOG1 and beside/S.LOG2' hive repair --dry-run beside/S
try 'beside: to read' 0 "$sound" 'beside/S: its logs beside it: beside/S.LOG1 and beside/S.LOG2' hive check --logs beside/S
try 'beside: to read one of several' 0 "$(printf 'beside/S: %s\nsample: %s' "$sound" "$sound")" 'its logs beside it' hive check --logs beside/S sample
lay S new-log2 new-log1 log
try 'beside: both logs, the other way round' 0 "$repairs" 'its logs beside it' hive repair --dry-run beside/S
lay S new-log - log
try 'beside: the first alone' 0 "$repairs" 'beside/S: its log beside it: beside/S.LOG1' hive repair --dry-run beside/S
lay S - new-log log
try 'beside: the second alone' 0 "$repairs" 'beside/S: its log beside it: beside/S.LOG2' hive repair --dry-run beside/S
lay S empty new-log log
try 'beside: an empty one is passed over' 0 "$repairs" 'beside/S.LOG1: it is empty, and passed over' hive repair --dry-run beside/S
lay S empty empty log
try 'beside: where both are empty, the old one' 0 "$repairs" 'beside/S: its log beside it: beside/S.LOG' hive repair --dry-run beside/S
lay S new-log new-log -
try 'beside: a copy is no other' 0 "$repairs" 'beside/S: its log beside it: beside/S.LOG1' hive repair --dry-run beside/S
lay S empty new-log empty
try 'beside: all of them named' 0 "$repairs" 'beside/S.LOG1: it is empty, and passed over' hive repair --dry-run beside/S beside/S.LOG beside/S.LOG1 beside/S.LOG2
lay S - - -
try 'beside: none' 1 'refused 21 at 0' 'beside/S: ' hive repair beside/S
try 'beside: none to read' 1 'refused 7 at 0' 'differ' hive check --logs beside/S
same 'beside: none, nothing changed' beside/S spoilt
cp new-log beside/s.Log1
try 'beside: whatever the case' 0 "$repairs" 'its log beside it: beside/s.Log1' hive repair --dry-run beside/S
cp new-log-gap beside/S.log1
cp new-log beside/S.LOG1
try 'beside: the very name first' 0 "$repairs" 'its log beside it: beside/S.LOG1' hive repair --dry-run beside/S
rm beside/s.Log1 beside/S.LOG1
try 'beside: then the very name of the hive' 1 'refused 25 at 0' 'its log beside it: beside/S.log1' hive repair --dry-run beside/S
lay S - - -
mkfifo beside/S.LOG1
mkdir beside/S.LOG2
cp new-log elsewhere
ln -s ../elsewhere beside/S.LOG
try 'beside: no pipe and no folder, but a link' 0 "$repairs" 'its log beside it: beside/S.LOG' timeout 10 $loader "$out/hive" repair --dry-run beside/S
lay S new-log - -
from_standard() { hive check --logs - <beside/S; }
try 'beside: standard input has none' 1 'refused 7 at 0' 'differ' from_standard
in_folder() { (cd beside && hive "$@"); }
try 'beside: without a folder' 0 "$repairs" 'S: its log beside it: ./S.LOG1' in_folder repair --dry-run ./S
try 'beside: without any slash' 0 "$repairs" 'S: its log beside it: S.LOG1' in_folder repair --dry-run S
try 'beside: clean, none is looked for' 0 "$clean_line" '' eval 'cp sample beside/S && hive repair --dry-run beside/S'
try 'beside: --log and --logs' 2 '' 'give one of the two' hive check --log log --logs spoilt
try 'beside: --only-this-log without a log' 2 '' '--only-this-log goes with --log' hive check --only-this-log spoilt

# One is named, and the other lies beside it.
for first in LOG1 LOG2; do
    if [ $first = LOG1 ]; then lay S new-log1 new-log2 -; else lay S new-log2 new-log1 -; fi
    for named in LOG1 LOG2; do
        if [ $named != $first ]; then
            try "left out: $named, which is the later and does not fit alone, $first the earlier" 1 'refused 25 at 0' 'the numbers of hive and log differ' hive repair beside/S beside/S.$named
            continue
        fi
        case $named in LOG1) both='beside/S.LOG1 beside/S.LOG2' other=LOG2 ;; LOG2) both='beside/S.LOG2 beside/S.LOG1' other=LOG1 ;; esac
        try "left out: $named named" 1 'left out' "beside/S.$named: beside/S.$other lies beside it, and the two follow each other" hive repair beside/S beside/S.$named
        said "left out: $named named, the line" "hive: type: hive repair beside/S $both"
        try "left out: $named to read" 1 'left out' "beside/S.$named: beside/S.$other lies beside it" hive ls -l beside/S 'a\b' --log beside/S.$named
        said "left out: $named to read, the line" "hive: type: hive ls -l --log ${both% *} --log ${both#* } beside/S 'a\\b'"
        same "left out: $named, nothing changed" beside/S spoilt
        try "left out: $named, the line does it" 0 "$repairs" '' hive repair --dry-run beside/S $both
    done
done
lay S new-log1 new-log2 -
try 'left out: json' 1 "$(printf '%s' '{"file":"beside/S","answer":"left out","log":"beside/S.LOG1","other":"beside/S.LOG2","words":"beside/S.LOG2 lies beside it, and the two follow each other: one alone would leave out for ever what the other holds. Nothing was read or written","type":"hive repair --json beside/S beside/S.LOG1 beside/S.LOG2"}')" '' hive repair --json beside/S beside/S.LOG1
try 'left out: all the same' 3 "$(hive repair --dry-run spoilt new-log1 2>/dev/null || true)" '' eval 'hive repair --dry-run --only-this-log beside/S beside/S.LOG1 2>/dev/null'
try 'left out: to read, all the same' 1 "$(hive check --log new-log1 spoilt 2>/dev/null || true)" 'is not possible' hive check --only-this-log --log beside/S.LOG1 beside/S
try 'left out: named twice is one' 1 'left out' 'beside/S.LOG2 lies beside it' hive repair beside/S beside/S.LOG1 beside/S.LOG1
cp new-log1 other-name
try 'left out: a copy of it is one' 1 'left out' 'other-name: beside/S.LOG2 lies beside it' hive repair beside/S other-name beside/S.LOG1
said 'left out: a copy of it, the line' 'hive: type: hive repair beside/S other-name beside/S.LOG2'
try 'left out: beside the hive alone' 1 'left out' 'other-name: beside/S.LOG2 lies beside it' hive repair beside/S other-name
cp spoilt away
try 'left out: beside the log alone, by its own name' 1 'left out' 'beside/S.LOG1: beside/S.LOG2 lies beside it' hive repair away beside/S.LOG1
cp new-log2 beside/away.LOG2
cp new-log1 beside/other
try "left out: beside the log alone, by the hive's name" 1 'left out' 'beside/other: beside/away.LOG2 lies beside it' hive repair away beside/other
from_both() { hive check --log beside/S.LOG1 - <spoilt; }
try 'left out: of standard input' 1 'left out' 'beside/S.LOG1: beside/S.LOG2 lies beside it' from_both

# The other is no matter: a copy, empty, of another hive, after a gap and older; or it is the better of the two.
lay S new-log new-log -
try 'left out: a copy is not' 0 "$repairs" '' hive repair --dry-run beside/S beside/S.LOG2
lay S new-log empty -
try 'left out: an empty one is not' 0 "$repairs" '' hive repair --dry-run beside/S beside/S.LOG1
lay S new-log torn-log2 -
try 'left out: one of another state is not' 0 "$repairs" '' hive repair --dry-run beside/S beside/S.LOG1
lay S new-log1 new-log-gap -
try 'left out: one after a gap is not' 3 "$(hive repair --dry-run spoilt new-log1 2>/dev/null || true)" '' eval 'hive repair --dry-run beside/S beside/S.LOG1 2>/dev/null'
lay S new-log minimal -
try 'left out: what is no log is not' 0 "$repairs" '' hive repair --dry-run beside/S beside/S.LOG1
head -c 600 new-log2 >torn-second
lay S new-log torn-second -
try 'left out: a torn one is not' 0 "$repairs" '' hive repair --dry-run beside/S beside/S.LOG1
lay S new-log new-log1 -
try 'left out: the earlier part of it is not' 0 "$repairs" '' hive repair --dry-run beside/S beside/S.LOG1
try 'left out: the other is the later' 1 'left out' 'beside/S.LOG2: beside/S.LOG1 lies beside it, fits the hive too, and is the later of the two' hive repair beside/S beside/S.LOG2
said 'left out: the later, the line' 'hive: type: hive repair beside/S beside/S.LOG1'
cp sample beside/S
try 'left out: not of a clean hive' 0 "$clean_line" '' hive repair --dry-run beside/S beside/S.LOG2

# Both as one log do not fit, and neither alone is taken: the later would leave out the page of the earlier.
lay S torn-log1 torn-log2 -
cp torn-base beside/S
try 'left out: two stamps, both logs' 1 'refused 25 at 0' 'the time stamps or the numbers of hive and log differ' hive repair beside/S beside/S.LOG1 beside/S.LOG2
try 'left out: two stamps, the other way round' 1 'refused 25 at 0' 'the time stamps or the numbers of hive and log differ' hive repair beside/S beside/S.LOG2 beside/S.LOG1
try 'left out: two stamps, beside it' 1 'refused 25 at 0' 'the time stamps or the numbers of hive and log differ' hive repair beside/S
try 'left out: two stamps, the later named' 1 'left out' 'do not fit the hive together (refused 25; see: hive explain 25)' hive repair beside/S beside/S.LOG2
said 'left out: two stamps, the line' 'hive: to take this log all the same, type: hive repair --only-this-log beside/S beside/S.LOG2'
same 'left out: two stamps, nothing changed' beside/S torn-base

# Names for the shell, and none where one has hidden characters.
lay "it's a hive" new-log1 new-log2 -
try 'left out: a name with blanks and a quote' 1 'left out' 'lies beside it' hive repair "beside/it's a hive" "beside/it's a hive.LOG1"
said 'left out: quoted' "hive: type: hive repair 'beside/it'\\''s a hive' 'beside/it'\\''s a hive.LOG1' 'beside/it'\\''s a hive.LOG2'"
eval "$(sed -n 's/^hive: type: hive repair/hive repair --dry-run/p' stderr)" >stdout
right 'left out: the shell reads the line' [ "$(cat stdout)" = "$repairs" ]
lay "$(printf 'a\033b')" new-log1 new-log2 -
try 'left out: hidden characters' 1 'left out' 'beside/a\x1bb.LOG2 lies beside it' hive repair "$(printf 'beside/a\033b')" "$(printf 'beside/a\033b.LOG1')"
right 'left out: hidden characters, no line' [ "$(grep -c type: stderr)" = 0 ]
rm -rf -- beside ./-S*
mkdir beside
cp spoilt beside/-S
cp new-log1 beside/-S.LOG1
cp new-log2 beside/-S.LOG2
try 'left out: a name with a minus' 1 'left out' 'lies beside it' in_folder repair -- -S -S.LOG1
said 'left out: the line has --' 'hive: type: hive repair -- -S -S.LOG1 -S.LOG2'
rm -rf beside elsewhere other-name away torn-second
