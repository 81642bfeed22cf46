# How much export, reg, keys and dump write of one file: in a tool that writes freely up to 4 KiB, where a hundred times the file is what counts; and in the tool itself.

to_part() { run "$out/hive-bound" "$@" >part; }
# pad LENGTH: zeros behind the hive, up to that length
pad() { dd if=/dev/null of=padded bs=1 seek="$1" 2>/dev/null; }
is_start() { cmp part all 2>&1 | grep -q 'EOF on.* part'; }

# bound FILE VERB OPTION..: all of it where it is a hundred times the file or less; else the start of it, and words
bound() {
    cp "$1" padded
    shift
    hive "$@" padded >all
    hundredth=$((($(wc -c <all) + 99) / 100))
    pad $((hundredth * 3 / 4))
    to_part "$@" padded 2>/dev/null || true
    right "bound: $*, no more than the start" is_start
    pad $((hundredth - 1))
    try "bound: $*, longer than a hundred times the file" 2 '' \
        "padded: what it holds takes more than $((hundredth - 1))00 bytes, over 1 GiB and over a hundred times the file, and no more is written" to_part "$@" padded
    try "bound: $*, longer and wanted" 0 '' '' to_part "$@" --any-length padded
    same "bound: $*, all of it" part all
    pad "$hundredth"
    try "bound: $*, no longer" 0 '' '' to_part "$@" padded
    same "bound: $*, all of it without a word" part all
}

bound shared export
bound shared reg
bound shared reg --utf8
bound paths keys
bound shared dump
bound paths dump
to_json() { to_part "$@" && false || tail -n 1 part; }
try 'bound: in JSON' 0 '{"file":"paths","answer":"trouble","words":"what it holds takes more than 12697600 bytes, over 1 GiB and over a hundred times the file, and no more is written: much of it is shared in the file; --any-length writes all of it"}' \
    'paths: what it holds' to_json keys --json paths
try 'bound: dump in JSON' 0 "{\"file\":\"shared\",\"answer\":\"trouble\",\"words\":\"what it holds takes more than $(wc -c <shared)00 bytes, over 1 GiB and over a hundred times the file, and no more is written: much of it is shared in the file; --any-length writes all of it\"}" \
    'shared: what it holds' to_json dump --json shared
try 'bound: dump in JSON, and wanted' 0 '' '' to_part dump --json --any-length shared
hive dump --any-length --json shared >all
same 'bound: dump in JSON, all of it' part all
bounded() { run "$out/hive-bound" "$@"; }
try 'bound: export to a file' 2 '' '--any-length writes all of it' bounded export shared shared.frames
right 'bound: nothing is left of it' [ "$(echo shared.frames*)" = 'shared.frames*' ]
try 'bound: no other verb has it' 2 '' 'ls takes no --any-length' hive ls --any-length paths

to_nowhere() { hive "$@" >/dev/null; }
try 'bound: more than 1 GiB' 2 '' 'shared-much: what it holds takes more than 1073741824 bytes' to_nowhere export shared-much
try 'bound: more than 1 GiB, and wanted' 0 '' '' to_nowhere export --any-length shared-much
cp shared-much padded
pad 13600000
try 'bound: more than 1 GiB of a file that is a hundredth of it' 0 '' '' to_nowhere export padded
rm -f padded part all
