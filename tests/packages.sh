#!/bin/sh
# Installs, removes and packs what is built: make install, uninstall, dist and deb. Both programs have to be built.
# A Debian package is made, and put into and taken out of a system of its own in a folder, where dpkg is here.

cd "$(dirname "$0")/.." || exit 1
room=$(mktemp -d) || exit 1
trap 'rm -rf "$room"' EXIT
failed=0

wrong() {
    echo "packages: $1" >&2
    failed=1
}

# The program at a path places the example, as the one that was built does.
places() {
    "$1" place examples/programmes.csv examples/candidates.csv examples/ranks.csv >"$room/out" 2>"$room/notes" \
        && cmp -s "$room/out" examples/placement.csv || wrong "$1 does not place the example"
}

# All that goes with the programs, by its path below the root.
installed='bin/place bin/place-desk share/doc/place/README.md share/doc/place/docs/FORMATS.md
    share/doc/place/examples/three_rounds/ranks.csv share/doc/place/tools/explain share/man/man1/place.1 share/man/man1/place-desk.1
    share/man/man5/place-files.5 share/bash-completion/completions/place
    share/bash-completion/completions/place-desk'
zsh_folder=site-functions
has_all() {
    for file in $installed "share/zsh/$zsh_folder/_place"; do
        [ -f "$1/$file" ] || [ -f "$1/$file.gz" ] || wrong "$1 has no $file"
    done
    cmp -s "$1/bin/place" crates/place_program/out/place_program || wrong "$1 has another program than is built"
    # a tool for auditors finds what it stands on
    if command -v python3 >/dev/null; then
        (cd "$1/share/doc/place" && tools/check_placement examples/programmes.csv examples/candidates.csv \
            examples/ranks.csv examples/placement.csv) >"$room/out" 2>&1 \
            || wrong "$1: check_placement says $(cat "$room/out")"
    fi
}

# Install and uninstall; a file of somebody else stays.
mkdir -p "$room/root/usr/bin" && : >"$room/root/usr/bin/other"
make -s install DESTDIR="$room/root" PREFIX=/usr || wrong 'make install failed'
has_all "$room/root/usr"
places "$room/root/usr/bin/place"
"$room/root/usr/bin/place-desk" examples/desk/placement.csv examples/desk/registrations.csv >"$room/out" 2>"$room/notes" \
    || wrong 'the installed desk failed'
make -s uninstall DESTDIR="$room/root" PREFIX=/usr || wrong 'make uninstall failed'
[ "$(find "$room/root" -type f)" = "$room/root/usr/bin/other" ] || wrong 'make uninstall leaves files'

# Where nothing is built, or a source is newer, nothing is copied or built, and the line says what to run.
mkdir -p "$room/tree/crates/place_program/out"
cp -R Makefile tools crates.txt README.md "$room/tree"
refuses() {
    make -s -C "$room/tree" install DESTDIR="$room/none" >"$room/out" 2>"$room/notes" && wrong "installs where $1"
    grep -q 'run make first' "$room/notes" || wrong "does not say what to run where $1"
    [ ! -e "$room/none" ] || wrong "copies where $1"
}
refuses 'nothing is built'
for crate in place_program desk_program; do
    mkdir -p "$room/tree/crates/$crate/out"
    cp "crates/$crate/out/$crate" "$room/tree/crates/$crate/out"
    touch -d '2001-01-01' "$room/tree/crates/$crate/out/$crate"
done
refuses 'a source is newer'

# One archive, the same bytes each time, whose sums hold and whose program runs.
archive=$(tools/package dist "$room/made") || wrong 'make dist failed'
first=$(sha256sum <"$archive")
tools/package dist "$room/made" >/dev/null
[ "$(sha256sum <"$archive")" = "$first" ] || wrong 'two archives of one commit differ'
tar -C "$room" -xzf "$archive"
folder=$room/$(basename "$archive" .tar.gz)
case $archive in *"$(git describe --tags --always --dirty)"*) ;; *) wrong "$archive has another name than the commit" ;; esac
(cd "$folder" && sha256sum --quiet -c SHA256SUMS) || wrong 'a sum of the archive is wrong'
[ "$(find "$folder" -type f | wc -l)" -eq $(($(wc -l <"$folder/SHA256SUMS") + 1)) ] || wrong 'a file has no sum'
has_all "$folder"
places "$folder/bin/place"

# A Debian package; its files, and the least C library that dpkg's own tool finds.
if ! command -v dpkg-deb >/dev/null; then
    echo 'packages: the Debian package is skipped, there is no dpkg-deb' >&2
    exit $failed
fi
package=$(tools/package deb "$room/made") || wrong 'make deb failed'
zsh_folder=vendor-completions
dpkg-deb -x "$package" "$room/unpacked"
has_all "$room/unpacked/usr"
depends=$(dpkg-deb -f "$package" Depends)
if command -v dpkg-shlibdeps >/dev/null && command -v objdump >/dev/null; then
    mkdir -p "$room/shlibs/debian" && : >"$room/shlibs/debian/control"
    found=$(cd "$room/shlibs" && dpkg-shlibdeps -O "$room/unpacked/usr/bin/place" "$room/unpacked/usr/bin/place-desk" \
        2>/dev/null)
    [ "$found" = "shlibs:Depends=$depends" ] || wrong "Depends is '$depends', and dpkg-shlibdeps says '$found'"
fi
least=$(echo "$depends" | sed 's/.*>= \(.*\))/\1/')
grep -q "GNU C library, $least" README.md || wrong "README names another C library than $least"

# A system in a folder that knows of the packages of this one: what is installed there touches nothing here.
into() {
    dpkg --root="$room/system" --log="$room/log" --force-not-root --force-bad-path "$@" >"$room/notes" 2>&1
}
mkdir -p "$room/system/var/lib/dpkg/info" "$room/system/var/lib/dpkg/updates"
if cp /var/lib/dpkg/status "$room/system/var/lib/dpkg/status" 2>/dev/null \
    && cp /var/lib/dpkg/info/format "$room/system/var/lib/dpkg/info/format" 2>/dev/null; then
    if into --install "$package"; then
        has_all "$room/system/usr"
        places "$room/system/usr/bin/place"
        into --remove place || wrong "the package is not removed: $(cat "$room/notes")"
        [ -z "$(find "$room/system/usr" -type f 2>/dev/null)" ] || wrong 'the removed package leaves files'
    else
        wrong "the package is not installed: $(cat "$room/notes")"
    fi
else
    echo 'packages: installing the Debian package is skipped, this is no Debian system' >&2
fi
exit $failed
