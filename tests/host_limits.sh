# The session's growth, the library's limits, and memory: part of host.sh.

# Takes of many notes: far more words than the first session has.
awk 'BEGIN { printf "lay a 4096"
    for (lane = 0; lane < 88; lane++) for (i = 0; i < 512; i++) printf " %d %d %d %d", lane, i * 800 + lane % 7, i * 800 + 70 + i % 90, 1 + i % 127
    print "\nsplit a 2000 l r\njoin l r b\nsame a b\nwrite b many.mid\nload c many.mid\nsame a c\ncut c 5 4000 d\ntakes" }' >script
carried_out --ticks 100 script
check 'all 45,056 notes are there' grep -q '^c: beats 4096, notes 45056, cells ' out
check 'the written file is large' [ "$(wc -c <many.mid)" -gt 300000 ]

# A take that no shelf can hold: four words more than there may be.
awk 'BEGIN { printf "lay a 10\nlay b 10"
    for (lane = 0; lane < 2048; lane++) for (i = 0; i < 128; i++) printf " %d %d %d 1", lane, 2 * i + 1, 2 * i + 2
    print "" }' >script
"$takecut" --ticks 300 script 2>err
check 'a take of more than 1,048,576 words: status 1' [ $? -eq 1 ]
check 'a take of more than 1,048,576 words: a message' \
    grep -q ': the result does not fit 1,048,576 words, the most that a take may have$' err

# 4,096 beats and no more.
ends 1 'command 2: join a a b: 2049 beats and 2049 are together more than 4096' --ticks 10 -e 'lay a 2049' -e 'join a a b'
carried_out --ticks 10 -e 'lay a 2048' -e 'join a a b' -e 'split b 4096 c d'

# 64 takes, and the 65th refused; commands whose parts do not fit are refused and leave the takes.
for i in $(seq 64); do echo "lay take$i 3 60 5 25 $i"; done >script
{ cat script; echo takes; } >script64
carried_out --ticks 10 script64
check '64 takes are there' [ "$(wc -l <out)" -eq 64 ]
{ cat script; echo 'lay more 1'; } >script65
ends 1 'line 65: lay more 1: all 64 shelves are in use; drop a take first' --ticks 10 script65
{ cat script; echo 'cut take1 1 2 take1'; } >script65
ends 1 'line 65: cut take1 1 2 take1: this needs 4 free shelves, and of 64 only 0 are free; drop a take first' --ticks 10 script65
{ cat script; for i in 1 2 3 4; do echo "drop take$i"; done; echo 'cut take5 1 2 a'; echo 'drop a'
  echo 'insert take5 1 take6 b 0 1'; echo 'drop take7'; echo 'lay c 3 60 5 25 64'; echo 'same c take64'; } >script64
carried_out --ticks 10 script64

# Names, paths and lines of any length.
name=$(printf 'n%.0s' $(seq 5000))
carried_out --ticks 10 -e "lay $name 1" -e "copy $name b" -e "same b '$name'"

# Without memory for a larger session: status 3, in words. The sanitizers need more room, so this is the plain program.
make -C "$root" --no-print-directory programs BUILD=build/plain >make.log 2>&1
check 'the plain program compiles' [ $? -eq 0 ]
awk 'BEGIN { printf "lay a 10"
    for (lane = 0; lane < 2000; lane++) for (i = 0; i < 120; i++) printf " %d %d %d 1", lane, 2 * i + 1, 2 * i + 2
    print "\ncopy a b\ncopy a c\ncopy a d\ncopy a e\ncopy a f\ncopy a g\ncopy a h\ncopy a i" }' >script
(ulimit -v 90000 && exec "$root/build/plain/takecut" --ticks 300 script 2>err)
check 'memory that runs out: status 3' [ $? -eq 3 ]
check "memory that runs out: a message ($(head -c 200 err))" grep -q 'memory ran out$' err
"$root/build/plain/takecut" --ticks 300 script
check 'the same with memory' [ $? -eq 0 ]
