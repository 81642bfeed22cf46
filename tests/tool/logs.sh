# A hive read together with its log: as the repair would leave it, and nothing is written.

cp spoilt file
try 'log: check' 0 "$(hive check sample)" '' hive check --log log file
try 'log: key' 0 "$(hive key sample "$print")" '' hive key file "$print" --log log
try 'log: ls' 0 "$(hive ls sample)" '' hive ls --log log file
try 'log: value' 0 '258 (0x102)' '' hive value --log log file "$print" Big
try 'log: a clean hive, whatever the log' 0 "$(hive check sample)" '' hive check --log empty sample
try 'log: a tree that is not sound' 1 'refused 9 at 0' 'the header of a bin' hive check --log bad-log file
try 'log: cut short' 1 'refused 22 at 0' 'short-log: the log is too short' hive ls --log short-log file
try 'log: of Windows 8.1, without an entry' 1 'refused 22 at 0' 'none of its entries counts' hive ls --log no-entry file
try 'log: of Windows 8.1' 0 "$(hive check sample)" '' hive check --log new-log file
try 'log: two of them' 0 "$(hive ls sample)" '' hive ls --log new-log2 file --log new-log1
try 'log: three' 2 '' '--log may stand twice, and "log" is the third' hive ls --log new-log1 --log new-log2 --log log file
try 'log: an empty one' 1 'refused 21 at 0' 'empty: the start of the log is not sound' hive check --log empty file
try 'log: none there' 2 '' 'hive: none: No such file' hive check --log none file
from_log() { hive check --log - file <log; }
try 'log: from standard input' 0 "$(hive check sample)" '' from_log
try 'log: not both from there' 2 '' 'cannot both be standard input' hive check --log - -
try 'log: the hive itself' 2 '' 'file: as LOG this is FILE once more, or a copy of it: give the log' hive check --log file file
try 'log: exchanged' 2 '' 'log: this is a log, and what is given as LOG is a hive: exchange the two' hive check --log file log
try 'log: exchanged, of Windows 8.1' 2 '' 'new-log: this is a log, and what is given as LOG is a hive: exchange the two' hive ls new-log --log file
mkfifo named
from_named() { cat log >named & hive check --log named file; }
try 'log: a pipe by its name' 0 "$(hive check sample)" '' from_named
rm named
same 'log: the hive is as it was' file spoilt
