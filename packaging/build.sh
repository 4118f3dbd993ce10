#!/usr/bin/env bash
# Makes the package nexus_VERSION_amd64.deb of the released program, by Debian's dpkg-deb.
#
#   packaging/build.sh [FOLDER]
#
# puts it into the folder, which is out/ where none is given, and prints its path. The same commit makes the same file.
set -eu

top=$(cd -P -- "$(dirname -- "$0")/.." && pwd)
# shellcheck source=../tools/sources.sh
. "$top/tools/sources.sh"
folder=${1:-$top/out}
version=$(<"$top/VERSION")
# Files have the date of the last commit, or a fixed one where there is no history.
export SOURCE_DATE_EPOCH
SOURCE_DATE_EPOCH=$(git -C "$top" log -1 --format=%ct 2>/dev/null || echo 1764000000)

work=$(mktemp -d)
trap 'rm -rf "$work"' EXIT
root=$work/root
umask 022
cp -r "$top/packaging/root" "$root"
doc=$root/usr/share/doc/nexus
mkdir -p "$doc/examples" "$root/usr/share/man/man1" "$root/usr/share/nexus" "$root/usr/share/lintian/overrides" "$root/DEBIAN"

read_manifest
unpack_release "$root/usr/lib/nexus/nexus"
gzip -9n <"$top/man/nexus.1" >"$root/usr/share/man/man1/nexus.1.gz"
cp "$top/tools/usage.txt" "$root/usr/share/nexus/usage"
cp "$top/tools/statuses.txt" "$root/usr/share/nexus/statuses"
echo "nexus $version" >"$root/usr/share/nexus/version"
cp "$top/NOTICE" "$top/packaging/debian/copyright" "$doc/"
cp "$top/packaging/policy" "$top/examples/serve/storage.requests" "$top/examples/serve/bob.requests" "$doc/examples/"
sed -e "s/VERSION/$version/" -e "s/DATE/$(date -uR -d "@$SOURCE_DATE_EPOCH")/" "$top/packaging/debian/changelog" | gzip -9n >"$doc/changelog.gz"
cp "$top/packaging/debian/overrides" "$root/usr/share/lintian/overrides/nexus"

size=$(du -k --apparent-size -s "$root" | cut -f 1)
sed -e "s/VERSION/$version/" -e "s/SIZE/$size/" "$top/packaging/debian/control" >"$root/DEBIAN/control"
cp "$top/packaging/debian/"{conffiles,postinst,prerm,postrm} "$root/DEBIAN/"
(cd "$root" && find . -path ./DEBIAN -prune -o -type f -printf '%P\n' | LC_ALL=C sort | xargs md5sum >DEBIAN/md5sums)
# What a clone's umask was doesn't matter.
find "$root" -type d -exec chmod 755 {} +
find "$root" -type f ! -perm /111 -exec chmod 644 {} +
find "$root" -type f -perm /111 -exec chmod 755 {} +
find "$root" -exec touch -h -d "@$SOURCE_DATE_EPOCH" {} +

mkdir -p "$folder"
package=$folder/nexus_${version}_amd64.deb
dpkg-deb --root-owner-group -Zxz --build "$root" "$package" >/dev/null
echo "$package"
