# The checks of what is installed: tests/host/run reads this file and has the helpers it uses.

# The program of the man page, between its .EX and .EE, once the escapes of roff are undone.
program_of_man_page() {
    sed -n '/^\.EX$/,/^\.EE$/p' host/man/chaffdancer.3 | sed '1d;$d' | sed 's/\\-/-/g'
}

# uses PKG_CONFIG_PATH COMPILER FLAGS...: the program compiled with what pkg-config says, and run.
uses() {
    local path=$1
    shift
    # shellcheck disable=SC2046 # several flags
    "$@" "${warnings[@]}" "$work/program.c" -o "$work/program" $(PKG_CONFIG_PATH=$path pkg-config --cflags --libs chaffdancer) &&
        [ "$("$work/program")" = opened ]
}

has_no_warnings() { # FILE: a man page
    groff -t -man -ww -Tutf8 "$1" 2>&1 >/dev/null | grep . && return 1
    grep -q "Chaffdancer $version" "$1"
}

check_install() {
    local prefix=$work/installed page version
    version=$(sed -n 's/^#define CHAFFDANCER_VERSION "\(.*\)"$/\1/p' include/chaffdancer.h)
    check "install" host/install "$prefix"
    check "install needs a prefix" fails_with 2 "usage: " host/install
    check "nothing but the calls is seen of the shared library" bash -c "nm -D --defined-only '$prefix/lib/libchaffdancer.so' |
        awk '{ print \$3 }' | sort >'$work/seen'; sed -n 's/^.*[ *]\(hub_[a-z_]*\|chaffdancer_[a-z_]*\)(.*/\1/p' <(
        grep -E '^(int64_t|void|const char \*)' include/chaffdancer.h) | sort | diff - '$work/seen'"
    program_of_man_page >"$work/program.c"
    check "a program with the shared library" env LD_LIBRARY_PATH="$prefix/lib" bash -c \
        "$(declare -f uses); $(declare -p warnings work); uses '$prefix/lib/pkgconfig' '${CC:-cc}' -std=c99"
    check "a program with the static library" bash -c "$(declare -f uses); $(declare -p warnings work)
        mv '$prefix'/lib/libchaffdancer.so* '$work/' && uses '$prefix/lib/pkgconfig' '${CC:-cc}' -std=c99"
    check "a program in C++" bash -c "$(declare -f uses); $(declare -p warnings work)
        uses '$prefix/lib/pkgconfig' '${CXX:-c++}' -x c++ -std=c++11"
    check "the installed host" bash -c "[ \"\$('$prefix/bin/chaffdancer-host' --version)\" = 'chaffdancer-host $version' ]"
    for page in host/man/*; do
        check "man page ${page##*/}" has_no_warnings "$page"
    done
    check "package" bash -c "rm -rf target/package && host/package && mkdir '$work/unpacked' &&
        tar -C '$work/unpacked' -xzf target/package/*.tar.gz"
    check "the same parts make the same package" bash -c "sha256sum target/package/*.tar.gz >'$work/sum' &&
        host/package && sha256sum -c '$work/sum'"
    check "a program with the package, wherever it is unpacked" env LD_LIBRARY_PATH="$(echo "$work"/unpacked/*/lib)" bash -c \
        "$(declare -f uses); $(declare -p warnings work)
        uses \$(echo '$work'/unpacked/*/lib/pkgconfig) '${CC:-cc}' -std=c99"
}
