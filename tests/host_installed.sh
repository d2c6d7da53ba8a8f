# What make install copies: part of host.sh.
if [ ! -x "$root/crates/cutter/out/cutter" ]; then echo 'crates/cutter/out/cutter is not built'; fi
make -C "$root" --no-print-directory install-files BUILD=build/plain PREFIX="$work/prefix" >make.log 2>&1
status=$?
check "install-files ($(tail -n 1 make.log))" [ "$status" -eq 0 ]
for file in include/zikorewi.h lib/libzikorewi.a lib/pkgconfig/zikorewi.pc bin/takecut bin/cutter \
    share/man/man1/takecut.1 share/man/man1/cutter.1 share/man/man3/zikorewi.3; do
    check "$file is installed" [ -s "prefix/$file" ]
done
check 'takecut is a program' [ "$(prefix/bin/takecut --version)" = 'takecut 0.1' ]
check 'cutter is a program' [ "$(echo 010000000A000000030000000400000020 | prefix/bin/cutter)" = 00 ]
cat >user.c <<'C'
#include <stdio.h>
#include <zikorewi.h>
int main(void)
{
    static uint32_t session[4 + 2 * 100];
    static const uint32_t note[] = {60, 8, 12, 100};
    size_t words = zikorewi_session_words(2, 100);
    uint32_t opened = take_open(session, words, 10, 3, 2, 100);
    uint32_t laid = take_lay(session, words, 0, 2, note, 4);
    printf("%u %u %u\n", opened, laid, session[4]);
    return 0;
}
C
# shellcheck disable=SC2046
PKG_CONFIG_PATH=prefix/lib/pkgconfig cc -std=c11 -Wall -Wextra -Werror user.c \
    $(PKG_CONFIG_PATH=prefix/lib/pkgconfig pkg-config --cflags --libs zikorewi) -o user
check 'a C program through pkg-config' [ "$(./user)" = '0 0 2' ]
make -C "$root" --no-print-directory install-files BUILD=build/plain PREFIX=/usr DESTDIR="$work/package" >make.log 2>&1
check 'the same for a package' [ -x package/usr/bin/takecut ]
check "the package's own prefix" grep -qx 'prefix=/usr' package/usr/lib/pkgconfig/zikorewi.pc

# The manual pages name every command, option and number.
for page in takecut.1 cutter.1 zikorewi.3; do
    if command -v groff >/dev/null; then
        check "$page has no warnings ($(groff -man -Tutf8 -ww -z "$root/man/$page" 2>&1 | head -n 2))" \
            [ -z "$(groff -man -Tutf8 -ww -z "$root/man/$page" 2>&1)" ]
    fi
done
for word in load lay write split join cut insert copy drop takes notes cells same roll picture help quit; do
    check "takecut.1 has $word" grep -qE "^\.B(R|I)? \"?$word\b" "$root/man/takecut.1"
done
for word in -e ticks shortest columns ascii progress help version; do
    check "takecut.1 has the option $word" grep -qE "^\.B(R|I)? .*\\\\-${word#-}" "$root/man/takecut.1"
done
for number in $(seq 0 15); do
    check "zikorewi.3 has the number $number" grep -qE "^\.B $number\$" "$root/man/zikorewi.3"
done
