# What is shown, options, and the reading of commands: part of host.sh.

# A take with notes of two channels and all shades, touching notes and hidden pieces.
take=(--ticks 96 --shortest 24 -e 'lay a 4 0 1 2 1 48 60 330 80 60 0 95 31 60 96 200 32 60 200 220 64 64 180 290 127 1188 5 384 64'
      -e 'cut a 1 2 b')
carried_out "${take[@]}" -e 'roll a' -e 'roll b' -e 'cells b' -e 'notes b'
printed roll.txt
carried_out "${take[@]}" --ascii --columns 60 -e 'roll b'
printed roll-ascii.txt
COLUMNS=40 carried_out "${take[@]}" --ascii -e 'roll a'
printed roll-narrow.txt
check 'no line is wider than 40 columns' [ "$(sed '$d' out | tail -n +2 | wc -L)" -le 40 ]
carried_out --ticks 4 -e 'lay none 0' -e 'lay silent 2' -e 'roll none' -e 'roll silent'
printed roll-empty.txt
carried_out --ticks 10 --columns 50 --ascii -e 'lay a 12 60 0 25 9 61 12 105 90' -e 'roll a'
printed roll-lines.txt
carried_out --ticks 1 --columns 40 -e 'lay a 30 60 0 25 9 61 12 17 90' -e 'roll a'
printed roll-ticks.txt
carried_out "${take[@]}" -e 'picture b picture.svg'
check 'the picture is the stored one' cmp picture.svg "$expected/picture.svg"
carried_out "${take[@]}" -e $'copy b "<a & \'b\' \\"c\\">\x01\xff\xc3\xa9"' -e $'picture "<a & \'b\' \\"c\\">\x01\xff\xc3\xa9" name.svg'
check "a name in a picture ($(grep '<title' name.svg))" grep -q $'>&lt;a &amp; \'b\' "c"&gt;??\xc3\xa9</title>' name.svg

# The demonstration, and the pictures in docs.
"$root/$checked/takecut-demo" >out
check 'the demonstration ends well' [ $? -eq 0 ]
printed demo.txt
check 'it fits a screen' [ "$(wc -l <out)" -lt 60 ]
check 'it fits 80 columns' [ "$(wc -L <out)" -le 80 ]
mkdir pictures && "$root/$checked/takecut-demo" --pictures pictures
check 'the pictures are written' [ $? -eq 0 ]
check 'docs/pictures are those of the demonstration' diff -r -x benchmark.svg pictures "$root/docs/pictures"
"$root/$checked/takecut-demo" --pictures none 2>err
check 'pictures in a folder that is not there: status 3' [ $? -eq 3 ]
"$root/$checked/takecut-demo" >/dev/full 2>err
check 'the demonstration on a full output: status 3' [ $? -eq 3 ]

# Options.
carried_out --help
check 'the help names every command' [ "$(grep -cE '^  (load|lay|write|split|join|cut|insert|copy|drop|takes|notes|cells|same|roll|picture|help|quit) ' out)" -eq 17 ]
carried_out --version
check 'the version' [ "$(cat out)" = 'takecut 0.1' ]
ends 2 '--tick: there is no such option; see takecut --help' --tick 10
ends 2 '--ticks: wants a whole number above 0; see takecut --help' --ticks ten
ends 2 '--ticks: wants a whole number above 0; see takecut --help' --ticks
ends 2 '--ticks=0: wants a whole number above 0; see takecut --help' --ticks=0
ends 2 '-e: wants a command; see takecut --help' -e
ends 2 'b: only one script can be given; see takecut --help' a b
ends 2 'a: a script and -e cannot be given together; see takecut --help' a -e help
carried_out --ticks=10 -e 'lay a 1' -e 'quit' -e 'nonsense'

# Commands from standard input and from a script: remarks, quotes, carriage returns, no last line feed.
printf '# a remark\n\n  lay "a b" 1\t# and one more\r\nlay c\\ d 1 \ncopy '"'c d'"' e\ntakes' >script
carried_out --ticks 10 script
check 'three takes' [ "$(cut -d: -f1 out | tr '\n' ,)" = 'a b,c d,e,' ]
"$takecut" --ticks 10 <script >out2 2>err
check 'the same from standard input' cmp out out2
"$takecut" --ticks 10 - <script >out2 2>err
check 'the same from -' cmp out out2
check 'no prompt without a terminal' [ ! -s err ]
printf 'lay a 1\ndrop a\0b\n' >script
ends 2 'line 2: a zero byte stands in it' --ticks 10 script
"$takecut" --ticks 10 <script >out 2>err
check 'a zero byte on standard input: status 2' [ $? -eq 2 ]
printf 'lay a 1\ndrop \33b\n' >script
ends 1 "line 2: drop ?b: there is no take named '?b'" --ticks 10 script
printf 'lay a 1\ndrop b\ntakes\n' | "$takecut" --ticks 10 >out 2>err
check 'standard input stops at the first refusal' [ $? -eq 1 -a ! -s out ]
: >script
carried_out script

ends 1 "line 1: drop $(printf 'x%.0s' $(seq 52))...: there is no take named '$(printf 'x%.0s' $(seq 70))'" \
    <(echo "drop $(printf 'x%.0s' $(seq 70))")

# Progress only where it is asked for or on a terminal.
yes 'lay a 1' | head -n 300 >script
run --ticks 10 --progress script
check 'progress: status 0' [ "$status" -eq 0 ]
check 'progress: the last count' [ "$(tail -n 1 err)" = '300 of 300 commands' ]
run --ticks 10 --progress -e 'lay a 1' -e 'drop b' -e takes
check 'progress: to the refusal' [ "$(tail -n 1 err)" = '1 of 3 commands' ]

slowly() { echo 'lay a 1' && sleep 0.6 && echo 'lay b 1'; }
slowly | "$takecut" --ticks 10 --progress 2>err
check 'progress: asked for' [ "$(cat err)" = '2 commands' ]
slowly | "$takecut" --ticks 10 2>err
check 'progress: not asked for' [ ! -s err ]

# On a terminal: a prompt, and a refusal does not end it.
cc $strict "$root/tests/host_terminal.c" -o terminal && ./terminal "$takecut" >out
status=$?
check "a terminal ($(cat out))" [ "$status" -eq 0 ]
