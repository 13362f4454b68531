#!/usr/bin/env bash
# Makes a Debian package of a program that is built, for `make deb`: what `make install PREFIX=/usr` installs, with the
# program stripped, the changelog, and what the program needs, which Debian's own tools reckon. The version is the one
# that the program says, which stands in crates/lmtpd_words/src/texts.rt alone. Two packages of one program are the same
# byte for byte: each file has the changelog's moment at the latest. There is no copyright file: which licence the
# sources have is their owner's to say.
# usage: packaging/debian/make.sh PROGRAM FOLDER: prints the path of the package, which it makes in FOLDER
set -euo pipefail
umask 022
export LC_ALL=C

stop() {
    echo "make deb: $*" >&2
    exit 1
}

# lacks PROGRAM..: says whether one of these isn't here, and which.
lacks() {
    local name
    for name in "$@"; do
        command -v "$name" > /dev/null || { echo "$name"; return 0; }
    done
    return 1
}

# version_of PROGRAM: the version and the toolchain that it says, once it is known that the sources say the same.
version_of() {
    local said texts=crates/lmtpd_words/src/texts.rt
    said=$("$1" --version) || stop "$1 says no version"
    said=${said#lmtpd }
    [[ $said =~ ^[0-9.]+\ \(.*\)$ ]] || stop "$1 says no version"
    grep -qF "\"$said\"" "$texts" || stop "$1 says '$said', and $texts another version: make build"
    echo "$said"
}

[ -x "$1" ] || stop 'no proved program is built yet (make build)'
[ -d "$2" ] || stop "$2 is no folder"
program=$(realpath "$1") folder=$(realpath "$2")
cd "$(dirname "$0")/../.."
if name=$(lacks dpkg-deb dpkg-shlibdeps dpkg-gencontrol dpkg-parsechangelog strip gzip); then
    stop "$name isn't installed (Debian's packages dpkg-dev and binutils have all that it needs)"
fi
said=$(version_of "$program")
version=${said%% *} toolchain=${said#* (} toolchain=${toolchain%)}
room=$(mktemp -d)
trap 'rm -rf "$room"' EXIT
root=$room/root
mkdir -p "$root/DEBIAN" "$room/debian" "$root/usr/share/doc/lmtpd"

make -s install DESTDIR="$root" PREFIX=/usr PROGRAM="$program"
strip --remove-section=.comment --remove-section=.note "$root/usr/sbin/lmtpd"
# The list of mailboxes is the site's: no part of the package, which makes one where none is.
install -d "$root/usr/share/lmtpd"
mv "$root/etc/lmtpd.boxes" "$root/usr/share/lmtpd/lmtpd.boxes"
cp packaging/debian/control "$room/debian/"
sed "s/@VERSION@/$version/" packaging/debian/changelog > "$room/debian/changelog"
gzip -9n < "$room/debian/changelog" > "$root/usr/share/doc/lmtpd/changelog.gz"
install -m 0755 packaging/debian/{postinst,prerm,postrm} "$root/DEBIAN/"
(cd "$root" && find etc -type f -printf '/%p\n' | sort) > "$root/DEBIAN/conffiles"
(cd "$root" && find usr -type f -print0 | sort -z | xargs -0 md5sum) > "$root/DEBIAN/md5sums"
cd "$room"
# It takes the program's libraries from this machine, whose release the package is for.
dpkg-shlibdeps -e"$root/usr/sbin/lmtpd" 2> "$room/said" || stop "dpkg-shlibdeps: $(cat "$room/said")"
dpkg-gencontrol -plmtpd -P"$root" -Vtoolchain="$toolchain" -f"$room/files" 2> "$room/said" || stop "$(cat "$room/said")"
SOURCE_DATE_EPOCH=$(dpkg-parsechangelog -S Timestamp)
export SOURCE_DATE_EPOCH
package=$folder/lmtpd_${version}_amd64.deb
dpkg-deb --root-owner-group --build "$root" "$package" > /dev/null
echo "$package"
