# Sourced by the scripts that link libocean_c.a, from the repository's root: builds the archive, which is for x86-64 Linux, as the kit is.
#
#     CC         the C compiler
#     archive    the archive, which `rt lib` writes in the folder of ocean_c
#     archive_of CRATE    builds the archive of a crate, and says in `built` where it is
command -v rt >/dev/null || { echo "the command rt of the Rattle kit is not on the path" >&2; exit 2; }
[ "$(uname -m)" = x86_64 ] || { echo "the archives are for x86-64, and this machine is not" >&2; exit 2; }
CC=${CC:-gcc}
command -v "$CC" >/dev/null || { echo "no $CC: apt-get install gcc" >&2; exit 2; }
# it is proved and built anew where a file of a crate is newer; what rt keeps in out/ does not count
archive_of() {
    built=crates/$1/out/lib$1.a
    if [ ! -f "$built" ] || [ -n "$(find crates crates.txt -name out -prune -o -type f -newer "$built" -print | head -n 1)" ]; then
        mkdir -p target
        (cd "crates/$1" && rt lib) >target/archive.say 2>&1 || { cat target/archive.say >&2; exit 1; }
        touch "$built"
    fi
}
archive_of ocean_c
archive=$built
