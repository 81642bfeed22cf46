# The three standard descriptors, closed in every combination, for every verb: no file that is opened then may get the number of one, or the tool's words are written into it.

# shut WHICH PROGRAM WORD..: with the descriptors in WHICH closed, and files for the others
shut() {
    (
        exec </dev/null >stdout 2>stderr
        case $1 in *0*) exec <&- ;; esac
        case $1 in *1*) exec >&- ;; esac
        case $1 in *2*) exec 2>&- ;; esac
        shift
        become "$@"
    )
}

# One combination: that the status is $want, or 2 where one of $needs is closed, and then it is said why if it can be; that standard output is what it is with all
# of them open, or nothing where the status is another; that the hive is $left; and that OUT, or the backup, has the bytes that it has with all of them open.
closed_so() {
    status=0 due=$want
    cp spoilt file
    rm -f made
    shut "$which" "$out/hive" "$@" || status=$?
    [ "$which" != all ] || { cp stdout open.stdout; [ ! -e made ] || cp made open.made; }
    case $which in $needs) due=2 ;; esac
    [ "$status" = "$due" ] || echo "status $status, wanted $due"
    case $which in *2*) ;; *) [ "$due" = "$want" ] || [ -s stderr ] || echo 'nothing is said' ;; esac
    case $which in *1*) ;; *) [ "$due" != "$want" ] && [ ! -s stdout ] || cmp stdout open.stdout ;; esac
    cmp file "$left"
    [ ! -e open.made ] || cmp made open.made
    [ -e open.made ] || [ ! -e made ] || echo 'there is an OUT'
    [ "$(echo made.part*)" = 'made.part*' ] || echo 'a part is left'
}

# closed NAME STATUS NEEDS LEFT WORD..: NEEDS is a pattern for combinations in which the answer cannot be written, or the hive not be read
closed() {
    name=$1 want=$2 needs=$3 left=$4
    shift 4
    rm -f open.made
    faults=''
    for which in all 0 1 2 01 02 12 012; do
        found=$(closed_so "$@" 2>&1) || true
        [ -z "$found" ] || faults="$faults [$which closed: $found]"
    done
    if [ -z "$faults" ]; then ok "closed: $name"; else bad "closed: $name" "$faults"; fi
}

closed_as() {
    for pair in all=0 0=1 1=2 2=4 01=3 02=5 12=6 012=7; do
        status=0
        shut "${pair%=*}" "$out/closed" || status=$?
        [ "$status" = "${pair#*=}" ] || return 1
    done
}

cp log log.before
never=-
right 'closed: the program has them so' closed_as
closed 'check' 0 '*1*' spoilt check sample
closed 'check, refused' 1 '*1*' spoilt check file
closed 'check, json' 1 '*1*' spoilt check --json file
closed 'check, standard input' 1 '*[01]*' spoilt check -
closed 'check, no file' 2 $never spoilt check nothing
closed 'check, with its log' 0 '*1*' spoilt check --log log file
closed 'check, as it is' 1 '*1*' spoilt check --as-is dirty
closed 'keys, as it is' 0 '*1*' spoilt keys --as-is dirty
closed 'export, as it is' 0 '*1*' spoilt export --as-is dirty made
closed 'info' 0 '*1*' spoilt info sample
closed 'info, broken' 0 '*1*' spoilt info file
closed 'info, json' 0 '*1*' spoilt info --json file
closed 'info, no base block' 1 '*1*' spoilt info empty
closed 'info, standard input' 1 '*[01]*' spoilt info -
closed 'key' 0 '*1*' spoilt key -l sample "$print"
closed 'ls' 0 '*1*' spoilt ls sample
closed 'keys' 0 '*1*' spoilt keys sample
closed 'value' 0 '*1*' spoilt value sample "$print" Big
closed 'value, a note' 0 '*1*' spoilt value texts '' odd
closed 'value, to a file' 0 $never spoilt value sample "$print" Large made
closed 'value, raw' 0 '*1*' spoilt value sample "$print" Large -
closed 'value, raw, refused' 1 '*[12]*' spoilt value sample "$print" nobody -
closed 'export' 0 '*1*' spoilt export sample
closed 'export, refused' 1 '*[12]*' spoilt export file
closed 'export, to a file' 0 '*1*' spoilt export sample made
closed 'export, to -' 0 '*[12]*' spoilt export sample -
closed 'build' 0 '*1*' spoilt build smallest made
closed 'build, to -' 0 '*[12]*' spoilt build smallest -
closed 'build, refused' 1 '*1*' spoilt build sample made
closed 'descriptor' 0 '*1*' spoilt descriptor sample a
closed 'descriptor, to a file' 0 $never spoilt descriptor sample a made
closed 'descriptor, raw' 0 '*1*' spoilt descriptor sample a -
closed 'descriptor, raw, refused' 1 '*[12]*' spoilt descriptor sample nobody -
closed 'reg' 0 '*1*' spoilt reg sample
closed 'reg, not all of it' 4 '*1*' spoilt reg --utf8 reg
closed 'reg, refused' 1 '*[12]*' spoilt reg file
closed 'dump' 0 '*1*' spoilt dump sample
closed 'dump, json' 0 '*1*' spoilt dump --json sample
closed 'dump, refused' 1 '*1*' spoilt dump file
closed 'deleted' 0 '*1*' spoilt deleted left
closed 'repair' 0 '*1*' sample repair --no-backup file log
closed 'repair, json' 0 '*1*' sample repair --no-backup --json file log
closed 'repair, with a backup' 0 '*1*' sample repair --backup made file log
closed 'repair, dry run' 0 '*1*' spoilt repair --dry-run file log
closed 'repair, refused' 1 '*1*' spoilt repair --no-backup file sample
closed 'repair, not sound' 3 '*1*' spoilt repair --no-backup file bad-log
closed 'repair, no log' 2 $never spoilt repair --no-backup file nothing
closed 'explain' 0 '*1*' spoilt explain 17
closed '--help' 0 '*1*' spoilt --help
closed '--version' 0 '*1*' spoilt --version
closed 'wrong usage' 2 $never spoilt chekc file
closed 'nothing' 2 $never spoilt

# Where nothing can be put in the place of one that is closed, nothing else is opened.
nowhere() { HIVE_NOWHERE=1 HIVE_TRACE=trace shut "$@"; }
for which in 0 1 2 12; do
    cp spoilt file
    rm -f trace
    status=0
    nowhere $which "$out/hive-cut" repair --backup made file log || status=$?
    right "closed: $which, and no place" [ "$status $(sed 's/.* //' trace)" = '2 /' ]
    same "closed: $which, and no place, nothing was changed" file spoilt
done
nowhere 1 "$out/hive-cut" repair file log || true
right 'closed: no place, and it is said' grep -qF 'hive: standard input, output or error is closed' stderr
same 'closed: the hive is as it was' sample sample.before
same 'closed: the log is as it was' log log.before
rm -f made open.made open.stdout
