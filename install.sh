#!/bin/sh
# Installs the programs mold and mold-join, their man pages and their completions, or removes them.
#
#     sh install.sh [--library] [--prefix DIR]    installs them below DIR; the default is /usr/local
#     sh install.sh --uninstall [--prefix DIR]    removes what it installed there
#
# With --library it also installs the library for programs in C, C++ and Rust: libmold.a, libmold.so, mold.h,
# mold.hpp, and mold.pc for pkg-config.
#
# The program mold is the one that ./mold runs, and the library the one that library/build provides: the prebuilt
# ones, if they were built from the present sources. Otherwise both scripts prove and build first, which may take
# an hour and needs the toolchain. The installed programs do not need this repository. mold-join needs Python 3.8
# or later.
#
# A line is printed for each file that is installed or removed. The file share/doc/mold/installed below DIR
# lists the installed files. An existing file that is not on that list is never replaced, because a linker
# is also named mold. The status is 0 on success, 1 on failure, and 2 for invalid arguments.
set -u
umask 022

top=$(dirname -- "$(readlink -f -- "$0")")
list=share/doc/mold/installed

fail() {
    printf 'install.sh: %s\n' "$1" >&2
    exit 1
}

print_usage() {
    printf 'usage: sh install.sh [--library | --uninstall] [--prefix DIR]\n' >&2
    exit 2
}

# Prints for each file its mode, its path in the repository, and its path below the prefix. A symbolic link has the mode
# `link`, and its target in place of the path in the repository.
files() {
    cat <<END
755 $program bin/mold
755 mold-join bin/mold-join
644 docs/mold.1 share/man/man1/mold.1
644 docs/mold-join.1 share/man/man1/mold-join.1
644 completions/mold.bash share/bash-completion/completions/mold
644 completions/mold.bash share/bash-completion/completions/mold-join
644 completions/_mold share/zsh/site-functions/_mold
644 LICENSE-MIT share/doc/mold/LICENSE-MIT
644 LICENSE-APACHE share/doc/mold/LICENSE-APACHE
644 LICENSES-OF-LIBRARIES.md share/doc/mold/LICENSES-OF-LIBRARIES.md
END
    [ "$library" = no ] || cat <<END
644 library/out/libmold.a lib/libmold.a
644 library/out/libmold.so lib/libmold.so.${version%.*}
link libmold.so.${version%.*} lib/libmold.so
644 library/mold.h include/mold.h
644 library/mold.hpp include/mold.hpp
644 library/mold.pc.in lib/pkgconfig/mold.pc
END
}

# Succeeds if this script installed the file.
is_listed() {
    grep -qxF "file $1" "$prefix/$list" 2>/dev/null
}

# Fails if a file exists that this script did not install.
check_no_conflict() {
    files | while read -r _ _ target; do
        if [ -e "$prefix/$target" ] && ! is_listed "$target"; then
            printf 'install.sh: %s exists and was not installed by this script: choose another --prefix\n' \
                "$prefix/$target" >&2
            exit 1
        fi
    done || exit 1
}

# Makes a folder below the prefix, and its parents, and prints a line for each folder that it makes.
make_folder() {
    [ ! -d "$prefix/$1" ] || return 0
    [ "$(dirname -- "$1")" = . ] || make_folder "$(dirname -- "$1")" || return
    mkdir -- "$prefix/$1" && printf 'folder %s\n' "$1"
}

# Makes all folders, and prints the list of installed files and folders, including earlier installations.
make_folders() {
    cat -- "$prefix/$list" 2>/dev/null
    files | while read -r _ _ target; do
        make_folder "$(dirname -- "$target")" || exit 1
        is_listed "$target" || printf 'file %s\n' "$target"
    done
}

# Escapes a text for the replacement of a sed command.
escaped() {
    printf '%s\n' "$1" | sed 's/[\\&|]/\\&/g'
}

# Copies a file. In a file whose name ends in .in, @prefix@ and @version@, which is that of the library, are replaced.
copy_file() {
    case $1 in
    *.in) sed "s|@prefix@|$(escaped "$prefix")|; s|@version@|$version|" "$1" >"$2" ;;
    *) cp -- "$1" "$2" ;;
    esac
}

# Makes a file with a mode, or a symbolic link.
make_file() {
    case $1 in
    link) ln -s "$2" "$3" ;;
    *) copy_file "$top/$2" "$3" && chmod "$1" "$3" ;;
    esac
}

# Installs a file in one step, so that a running program is not overwritten.
install_file() {
    make_file "$1" "$2" "$prefix/$3.new.$$" && mv -f -- "$prefix/$3.new.$$" "$prefix/$3" && printf '%s\n' "$prefix/$3"
}

install_files() {
    files | while read -r mode source target; do
        install_file "$mode" "$source" "$target" || exit 1
    done || fail "not all files were installed below $prefix"
}

install_all() {
    "$top/mold" --version >/dev/null || fail 'the program could not be built'
    # Without it the launcher could not write to out/, and runs the prebuilt program.
    [ -x "$top/$program" ] || program=prebuilt/linux-x86_64/mold
    version=$(sed -n 's/^#define MOLD_LIBRARY_VERSION_TEXT "\(.*\)"$/\1/p' "$top/library/mold.h")
    [ "$library" = no ] || sh "$top/library/build" >/dev/null || fail 'the library could not be built'
    mkdir -p -- "$prefix" || fail "the folder $prefix could not be made"
    check_no_conflict
    made=$(make_folders) || fail "not all folders could be made below $prefix"
    printf '%s\n' "$made" >"$prefix/$list" || fail "the list $prefix/$list could not be written"
    install_files
    case :$PATH: in
    *:"$prefix/bin":*) ;;
    *) printf '%s is not on the PATH\n' "$prefix/bin" ;;
    esac
}

# Removes the listed files, and then the listed folders that are empty, the innermost first.
remove_all() {
    [ -f "$prefix/$list" ] || fail "nothing below $prefix was installed by this script"
    listed=$(cat -- "$prefix/$list") || fail "the list $prefix/$list could not be read"
    rm -f -- "$prefix/$list" || fail "the list $prefix/$list could not be removed"
    printf '%s\n' "$listed" | sed -n 's/^file //p' | while read -r target; do
        rm -f -- "$prefix/$target" && printf 'removed %s\n' "$prefix/$target"
    done
    printf '%s\n' "$listed" | sed -n 's/^folder //p' | sed '1!G;h;$!d' | while read -r target; do
        rmdir -- "$prefix/$target" 2>/dev/null
    done
    return 0
}

program=out/mold
prefix=/usr/local
task=install_all
library=no
while [ $# -gt 0 ]; do
    case $1 in
    --prefix)
        [ $# -ge 2 ] || print_usage
        prefix=$2
        shift
        ;;
    --prefix=*) prefix=${1#--prefix=} ;;
    --uninstall) task=remove_all ;;
    --library) library=yes ;;
    *) print_usage ;;
    esac
    shift
done
case $prefix in
'') print_usage ;;
/*) ;;
*) prefix=$(pwd)/$prefix ;;
esac
"$task"
