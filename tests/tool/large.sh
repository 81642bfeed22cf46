# The longest hive, 2^31 bytes in a file that is nearly all a hole: in less than 10 seconds and 300 MiB of memory each time.

within() { run "$out/peak" 10 307200 $loader "$out/hive" "$@"; }
longest='accepted bins 1 keys 1 values 1 used 168 free 2147479352'
try 'large: check' 0 "$longest" '' within check longest
try 'large: a value at the end' 0 'the en' '' within value longest '' v
try 'large: padded' 0 "$longest" '' within check longest-padded
try 'large: over 4 GiB' 2 '' "it has more than 4294967296 bytes, which is this tool's limit" within check longest-and-more
try 'large: a byte short' 1 'refused 6 at 0' 'the file ends before its bins do' within check longest-cut
try 'large: bins size 0x80000000' 1 'refused 5 at 0' 'the size of the bins data is not possible' within check longest-field
try 'large: before its repair' 1 'refused 7 at 0' 'give its log with --log' within check longest-spoilt
try 'large: as its log would repair it' 0 "$longest" '' within check --log longest-log longest-spoilt
try 'large: as a log of Windows 8.1 would repair it' 0 "$longest" '' within check --log longest-new-log longest-spoilt
try 'large: dry run with it' 0 "$(printf 'would repair 2\n%s' "$longest")" '' within repair --dry-run longest-spoilt longest-new-log
try 'large: repair' 0 "$(printf 'repaired 2\n%s' "$longest")" 'next: put it where it belongs' within repair longest-spoilt longest-log
ends() { dd if="$1" bs=4096 count=2 && dd if="$1" bs=4096 skip=524287; } 2>/dev/null
ends longest >ends
ends longest-spoilt >ends.repaired
same 'large: the repaired file, at both ends' ends.repaired ends
right 'large: and between them it is a hole as before' [ "$(du -k longest-spoilt | cut -f 1)" -lt 1024 ]
right 'large: and so it is in the copy' [ "$(du -k longest-spoilt.before-repair | cut -f 1)" -lt 2048 ]
rm longest*
