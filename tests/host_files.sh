# Files in and out: part of host.sh. plain.mid and rich.mid come from host_files.c.

# A written file loaded again is the same take without hidden pieces, and the same file.
carried_out -e 'load a plain.mid' -e 'write a again.mid' -e 'load b again.mid' -e 'same a b'
check 'plain.mid is written as it was' cmp plain.mid again.mid
carried_out -e 'load a rich.mid' -e 'notes a' -e 'write a rich-out.mid' -e 'load b rich-out.mid' -e 'same a b'
printed rich-notes.txt
carried_out --ticks 10 --shortest 3 -e 'lay a 2 60 8 12 100' -e 'write a example.mid' -e 'split a 1 l r' -e 'write l half.mid'
check "the paper's file" [ "$(od -An -v -tx1 example.mid | tr -d ' \n')" = \
    4d5468640000000600000001000a4d54726b0000000c08903c6404803c4008ff2f00 ]
check "the paper's file of half a note" [ "$(od -An -v -tx1 half.mid | tr -d ' \n')" = \
    4d5468640000000600000001000a4d54726b000000040aff2f00 ]

# plain.mid with bytes changed: place, byte, place, byte...
changed() {
    cp plain.mid broken.mid
    while [ $# -gt 0 ]; do
        printf "\\x$2" | dd of=broken.mid bs=1 seek="$1" conv=notrunc 2>/dev/null
        shift 2
    done
}

# A load of the changed file is refused with this message.
broken() {
    ends 1 "command 1: load a broken.mid: $1" -e 'load a broken.mid'
}

changed 0 4E && broken 'byte 0: the file does not begin with MThd, so it is no MIDI file'
: >broken.mid && broken 'byte 0: the file does not begin with MThd, so it is no MIDI file'
head -c 6 plain.mid >broken.mid && broken 'byte 6: the file ends inside its header'
changed 7 05 && broken 'byte 4: the header has 5 bytes, fewer than 6'
head -c 13 plain.mid >broken.mid && broken 'byte 4: the header should have 6 bytes, but the file ends before'
changed 9 01 && broken 'byte 8: the file has format 1; save it in format 0, as one track'
changed 11 02 && broken 'byte 10: the header names 2 tracks, not one'
changed 12 E7 && broken 'byte 12: the file counts time in film frames, not in ticks to the beat'
changed 13 00 && broken 'byte 12: the file has 0 ticks to the beat'
changed 13 61
ends 1 'command 1: load a broken.mid: byte 12: the file has 97 ticks to the beat, this session 96' \
    --ticks 96 -e 'load a broken.mid'
head -c 14 plain.mid >broken.mid && broken 'byte 14: the file ends without a track'
head -c 20 plain.mid >broken.mid && broken "byte 14: the file ends inside a chunk's name or length"
changed 17 6C && broken "byte $(wc -c <plain.mid): the file ends without a track"
changed 20 01 && broken 'byte 18: the chunk should have 300 bytes, but the file has only 44 more'
changed 23 10 && broken 'byte 23, event 1 (tick 0): 10 is no status, and no earlier one carries on'
changed 23 F4 && broken 'byte 23, event 1 (tick 0): the status F4 cannot stand in a file'
changed 24 80 && broken 'byte 24, event 1 (tick 0): 80 stands where a data byte below 80 should'
changed 22 FF 23 FF 24 FF 25 FF && broken "byte 22, event 1: an event's time has more than four bytes"
changed 23 F0 24 7F && broken 'byte 24, event 1 (tick 0): the event should have 127 bytes, but the track has only 41 more'
changed 23 FF 24 90 && broken "byte 24, event 1 (tick 0): the meta event's type 90 is above 7F"
changed 23 FF 24 2F 25 00 && broken 'byte 24, event 1 (tick 0): an end of track stands 40 bytes before the track'"'"'s end'
changed 65 01 && broken 'byte 64, event 11 (tick 384): the end of track has a length of 1, not 0'
changed 21 2B && broken "byte 65, event 11 (tick 384): the track ends inside the end of track's length"
changed 21 29 && broken 'byte 63, event 11 (tick 384): the track ends inside an event'
changed 64 2E && broken 'byte 66, event 12: the track is over without an end of track'
changed 29 FF && broken 'byte 29, event 2 (tick 5): FF stands where a data byte below 80 should'
printf 'MThd\0\0\0\6\0\0\0\1\0\12MTrk\0\0\0\6\x82\xC0\1\xFF\x2F\0' >broken.mid
broken 'byte 22, event 1 (tick 40961): the event is later than 4096 beats of 10 ticks'
printf 'MThd\0\0\0\6\0\0\0\1\0\12MTrk\0\0\0\x0C\0\x99\x24\1\5\x24\2\0\x24\0\xFF\x2F\0' >broken.mid
broken 'byte 26, event 2 (tick 5): key C2 (36) of channel 9 starts while it sounds since tick 0'

# The first file that is read decides the ticks to the beat; without takes the next one does.
carried_out -e 'load a plain.mid' -e 'drop a' -e 'load a example.mid' -e 'takes'
check '10 ticks to the beat' grep -q '10 ticks to the beat' out
ends 1 'command 2: load b example.mid: byte 12: the file has 10 ticks to the beat, this session 96' \
    -e 'load a plain.mid' -e 'load b example.mid'

# Files that cannot be read or written.
ends 3 'command 1: load a none.mid: the file cannot be read: No such file or directory' -e 'load a none.mid'
ends 3 'command 1: load a .: the file cannot be read: Is a directory' -e 'load a .'
ends 3 'command 2: write a none/x.mid: the file cannot be written: No such file or directory' \
    -e 'load a plain.mid' -e 'write a none/x.mid'
ends 3 'command 2: write a .: the file cannot be written: Is a directory' -e 'load a plain.mid' -e 'write a .'
ends 3 'none: the script cannot be read: No such file or directory' none
"$takecut" -e 'load a plain.mid' -e 'roll a' >/dev/full 2>err
check 'standard output that is full: status 3' [ $? -eq 3 ]
check 'standard output that is full: a message' grep -q '^takecut: standard output cannot be written' err

# A pipe is written directly and stays a pipe; a reader that leaves is an error. No device of the machine is named as a
# file to be written here, since a wrong program could replace it.
awk 'BEGIN { printf "lay a 4000"; for (i = 0; i < 20000; i++) printf " 60 %d %d 9", 2 * i, 2 * i + 1; print "" }' >long
{ cat long; echo 'write a long.mid'; echo 'write a pipe'; } >script
mkfifo pipe
timeout 60 cat pipe >piped &
carried_out --ticks 10 script
wait $!
check 'the pipe has the file' cmp piped long.mid
check 'the pipe is still one' [ -p pipe ]
timeout 60 head -c 1 pipe >piped &
(trap '' PIPE && timeout 60 "$takecut" --ticks 10 script 2>err)
check 'a reader that leaves: status 3' [ $? -eq 3 ]
wait $!
check "a reader that leaves: a message ($(cat err))" grep -qx 'takecut: line 3: write a pipe: the file cannot be written: Broken pipe' err

# A write that fails leaves the old file and no other; one that is carried out keeps the file's mode and a link.
mkdir kept && echo old >kept/a.mid && ln -s a.mid kept/link.mid && chmod 640 kept/a.mid
awk 'BEGIN { printf "lay a 40"; for (i = 0; i < 400; i++) printf " 60 %d %d 9", i, i + 1 }' >script
echo >>script && echo 'write a kept/a.mid' >>script
(trap '' XFSZ && ulimit -f 1 && "$takecut" --ticks 10 script 2>err)
check 'a file that grows too large: status 3' [ $? -eq 3 ]
check 'a file that grows too large: a message' grep -q '^takecut: line 2: .*: the file cannot be written: File too large' err
check 'the old file is as it was' [ "$(cat kept/a.mid)" = old ]
check 'no other file is left' [ "$(ls kept | wc -l)" -eq 2 ]
carried_out -e 'load a plain.mid' -e 'write a kept/link.mid'
check 'the link leads to the new file' cmp kept/a.mid plain.mid
check 'the link is still one' [ -L kept/link.mid ]
check 'the mode stays' [ "$(stat -c %a kept/a.mid)" = 640 ]
check 'no other file is left' [ "$(ls kept | wc -l)" -eq 2 ]
