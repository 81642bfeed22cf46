# No memory: each allocation of a run fails in turn, alone or with all behind it, the C library's own too. The run ends with status 2 and a line on standard
# error; or, where it did without, as ever. A new file is there whole or not at all, and a hive to repair is as it was or repaired.

hive_starved() { HIVE_STARVED=starved HIVE_STARVE=$k run "$out/hive-starve" "$@"; }
hive_starved_from() { HIVE_FROM=1 hive_starved "$@"; }

# as_ever: what the last run did is what it does with memory
# unharmed: what may be there of the files that it writes
unharmed() {
    [ "$(echo new.part*)" = 'new.part*' ] && { [ ! -e torn.before-repair ] || cmp -s torn.before-repair torn.kept; } && [ ! -e torn.before-repair.part1 ] && { [ ! -e new ] || cmp -s new usual-new; } && { [ ! -e torn.kept ] || cmp -s torn torn.kept || cmp -s torn torn.usual; }
}
as_ever() { [ "$status" = "$usual" ] && cmp -s stdout stdout.usual && cmp -s stderr stderr.usual && { [ ! -e usual-new ] || cmp -s new usual-new; }; }

# one HOW WORD..: allocation k fails. Wrong is what ends otherwise than it may.
one() {
    how=$1 status=0
    shift
    rm -f new new.part* starved torn.before-repair*
    [ ! -e torn.kept ] || cp torn.kept torn
    $how "$@" >stdout 2>stderr || status=$?
    [ -e starved ] || return 0
    runs=$((runs + 1))
    if as_ever; then return; fi
    if [ "$status" = 2 ] && grep -q '^hive: ' stderr && unharmed; then return; fi
    wrong="$wrong $how $k: status $status;"
}

# starve WORD..: a command, with each allocation that it makes
starve() {
    wrong='' runs=0 k=0 usual=0
    rm -f new usual-new torn.before-repair*
    [ ! -e torn.kept ] || cp torn.kept torn
    hive_starved "$@" >stdout.usual 2>stderr.usual || usual=$?
    [ ! -e new ] || mv new usual-new
    [ ! -e torn.kept ] || cp torn torn.usual
    while k=$((k + 1)) && one hive_starved "$@" && [ -e starved ]; do
        one hive_starved_from "$@"
    done
    if [ "$runs" -gt 0 ] && [ -z "$wrong" ]; then ok "no memory: hive $*, $runs runs"; else bad "no memory: hive $*" "$runs runs;$wrong"; fi
}

rm -f torn.kept usual-new
notation='@\\\ud83dg'
for json in '' --json; do
    for words in 'check sample' 'check /proc/version' 'check minimal cut nothing' 'check --log log spoilt' 'check --log new-log1 --log new-log2 spoilt' 'check --grow --log new-log-grown spoilt-short' \
        'check own-parent' 'info sample' 'info minimal cut nothing' 'info /proc/version' 'key -l sample a' 'key sample a\k9' "key notation $notation" 'key cut a' 'ls sample a' 'key sample HKLM/SYSTEM/a' 'value sample a/k1 x' 'ls -l notation @' 'ls names' 'ls bad-key' 'keys notation' \
        'keys bad-key' 'keys sample nobody' 'dump sample' 'dump notation @' 'dump bad-key' 'dump --as-is dirty' "value sample $print Large new" "value sample $print Several" 'value --nth 2 names \ a\x0ab' 'value names \ a\x0aB' 'descriptor sample a' 'descriptor sample a new' 'descriptor sample a\k9 new' 'export sample new' \
        'export sample' 'export bad-key new' 'export bad-key' 'build sample.frames new' 'build log new' 'build --descriptor log sample.frames new' 'deleted left' \
        'repair --dry-run spoilt log' 'repair --dry-run spoilt short-log' 'check --as-is dirty' 'ls --as-is dirty' 'export --as-is dirty new'; do
        starve ${words%% *} $json ${words#* }
    done
done
for words in 'reg sample' 'reg reg' 'reg --utf8 reg names' 'reg --prefix a\b bad-key' 'reg sample nobody' 'explain 17' '--help' '--version'; do
    starve $words
done
cp spoilt torn.kept
for json in '' --json; do
    starve repair $json --backup new torn log
    starve repair $json torn log
    cp new-log1 torn.LOG1
    starve repair $json --no-backup torn new-log1
    cp new-log2 torn.LOG2
    starve repair $json torn
    starve repair $json torn torn.LOG1
    starve check $json --logs torn
    starve info $json torn
    starve check $json --as-is torn
    starve ls $json --log new-log1 torn
    rm torn.LOG1 torn.LOG2
    starve repair --no-backup $json torn new-log1 new-log2
    starve repair --no-backup $json torn short-log
done
rm -f torn torn.* new usual-new starved
