# Edits of takes: part of host.sh.
ab=(--ticks 10 --shortest 3 -e 'lay a 2 60 8 12 100')

# The paper's cases A, B and E.
carried_out "${ab[@]}" -e 'split a 1 l r' -e 'notes l' -e 'notes r' -e 'join l r b' -e 'same a b' -e 'notes b'
printed case-a.txt
carried_out --ticks 10 --shortest 3 -e 'lay d 3 60 5 25 90' -e 'lay silence 1' -e 'split d 1 x yz' \
    -e 'split yz 1 y z' -e 'join silence y sy' -e 'join sy z e' -e 'notes e' -e 'split e 2 left right' -e 'notes left'
printed case-e.txt

# Cut and insert are the splits and joins that they stand for.
carried_out --ticks 10 -e 'lay d 4 60 5 35 90 61 12 18 5' -e 'cut d 1 3 c' -e 'split d 3 abc d4' \
    -e 'split abc 1 a bc' -e 'join a d4 e' -e 'same c e' -e 'insert c 1 bc f' -e 'same f d' \
    -e 'insert c 1 d g 1 3' -e 'same g d' -e 'insert d 0 d h' -e 'join d d i' -e 'same h i'
carried_out --ticks 10 -e 'lay d 4 60 5 35 90' -e 'cut d 2 2 c' -e 'same c d' -e 'cut d 0 4 none' -e 'takes'
check 'a cut of all beats leaves none' grep -q '^none: beats 0, notes 0, cells 0' out

# Results may take the names of what is read.
carried_out "${ab[@]}" -e 'copy a b' -e 'split a 1 a b' -e 'join a b a' -e 'lay c 2 60 8 12 100' -e 'same a c' \
    -e 'cut a 0 1 a' -e 'insert a 1 a a' -e 'drop b' -e 'takes'
check 'two takes are left' [ "$(wc -l <out)" -eq 2 ]

# Refusals, in words. A refused command changes no take.
ends 1 "command 2: split a 3 l r: beat 3: the take has only 2 beats" "${ab[@]}" -e 'split a 3 l r'
ends 1 "command 2: cut a 1 3 b: beat 3: the take has only 2 beats" "${ab[@]}" -e 'cut a 1 3 b'
ends 1 "command 2: cut a 2 1 b: beat 2 is behind beat 1" "${ab[@]}" -e 'cut a 2 1 b'
ends 1 "command 2: insert a 3 a b: beat 3: the take has only 2 beats" "${ab[@]}" -e 'insert a 3 a b'
ends 1 "command 2: insert a 1 a b 1 5: beat 5: the take has only 2 beats" "${ab[@]}" -e 'insert a 1 a b 1 5'
ends 2 "command 2: insert a 1 a b 1: the other take's beats want both FROM and TO" "${ab[@]}" -e 'insert a 1 a b 1'
ends 1 "command 2: split a 1 b b: the two halves want two names" "${ab[@]}" -e 'split a 1 b b'
ends 1 "command 2: join a z b: there is no take named 'z'" "${ab[@]}" -e 'join a z b'
ends 1 "command 2: drop z: there is no take named 'z'" "${ab[@]}" -e 'drop z'
ends 1 "command 3: same a b: the takes differ" "${ab[@]}" -e 'lay b 2 60 8 12 99' -e 'same a b'
ends 2 "command 2: split a -1 l r: '-1' is not a beat; beats are counted from 0" "${ab[@]}" -e 'split a -1 l r'
ends 2 "command 2: split a 4294967296 l r: '4294967296' is not a beat; beats are counted from 0" \
    "${ab[@]}" -e 'split a 4294967296 l r'
ends 2 "command 2: split a 1 l: the command is: split NAME BEAT LEFT RIGHT" "${ab[@]}" -e 'split a 1 l'
ends 2 "command 2: chop a: there is no such command; 'help' lists them" "${ab[@]}" -e 'chop a'
ends 2 "command 2: drop 'a: a quote is not closed" "${ab[@]}" -e "drop 'a"
printf '%s\n' 'lay a 2 60 8 12 100' 'split a 9 a b' 'drop a' >script
ends 1 'line 2: split a 9 a b: beat 9: the take has only 2 beats' --ticks 10 script

# Note lists.
ends 1 "command 1: lay a 2 60 8 30 100: note 1: it ends after the last beat" --ticks 10 -e 'lay a 2 60 8 30 100'
ends 1 "command 1: lay a 2 60 8 9 1 60 8 12: note 2: it is not whole; a note is lane, start, end, velocity" \
    --ticks 10 -e 'lay a 2 60 8 9 1 60 8 12'
ends 1 "command 1: lay a 2 60 1 9 1 60 8 12 1: note 2: it starts before the one ahead of it, in the same lane, ends" \
    --ticks 10 -e 'lay a 2 60 1 9 1 60 8 12 1'
ends 1 "command 1: lay a 4097: the result would have more than 4,096 beats" --ticks 10 -e 'lay a 4097'
ends 2 "command 1: lay a x: 'x' is not a number" --ticks 10 -e 'lay a x'
ends 1 'command 1: lay a 2: the ticks to the beat are not known: give --ticks, or load a file first' -e 'lay a 2'
sizes='ticks to the beat go from 1 to 32,767, the shortest piece kept from 1 to these ticks'
ends 1 "command 1: lay a 2: $sizes" --ticks 32768 -e 'lay a 2'
ends 1 "command 1: lay a 2: $sizes" --ticks 10 --shortest 11 -e 'lay a 2'

# 300 random cuts and moves, each undone by its pieces put back; then 300 turns of the whole take.
awk 'BEGIN { srand(7); n = 32
    for (i = 0; i < 300; i++) { f = int(rand() * n); t = f + 1 + int(rand() * (n - f))
        printf "split t %d h r\nsplit h %d x m\ncut t %d %d u\ninsert u %d m t\n", t, f, f, t, f }
    for (i = 0; i < 300; i++) { k = int(rand() * (n + 1)); sum += k; printf "split t %d l r\njoin r l t\n", k }
    printf "split t %d l r\njoin r l t\nsame t a\n", (n - sum % n) % n }' >cuts
awk 'BEGIN { srand(5); printf "lay a 32"
    for (lane = 40; lane < 60; lane++) for (at = int(rand() * 90); at < 3000; at = end + int(rand() * 60)) {
        end = at + 1 + int(rand() * rand() * 400); if (end > 3072) end = 3072
        printf " %d %d %d %d", lane, at, end, 1 + int(rand() * 127) }
    printf "\ncopy a t\n" }' >recording
cat recording cuts >script
carried_out --ticks 96 script
check 'the script has 1,805 commands' [ "$(wc -l <script)" -eq 1805 ]
sed -i '$d' script
echo 'cut t 3 4 t' >>script
echo 'same t a' >>script
ends 1 'line 1806: same t a: the takes differ' --ticks 96 script

# Without --shortest an eighth of the beat is kept: 10 ticks of 80, not 9.
carried_out --ticks 80 -e 'lay a 2 60 70 90 100 61 71 89 100' -e 'split a 1 l r' -e 'notes l'
check 'ten ticks are kept, nine are hidden' [ "$(awk 'NR > 2 { print $3, $5, $6 }' out)" = '60 70 80' ]
