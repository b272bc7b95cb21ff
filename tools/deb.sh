#!/bin/sh
# Makes a Debian package of the proved program, its manual page and its completions, which is then
# build/babel-dump_VERSION_ARCHITECTURE.deb. DEBFULLNAME and DEBEMAIL name who makes it.
set -eu

top=$(CDPATH= cd -- "$(dirname -- "$0")/.." && pwd)
version=$("$top/build/babel-dump" --version | cut -d ' ' -f 2)
architecture=$(dpkg --print-architecture)
maker="${DEBFULLNAME-babel-dump} <${DEBEMAIL-babel-dump@$(hostname).invalid}>"
date=$(date -R -r "$top/build/babel-dump")
package=$top/build/babel-dump_${version}_$architecture.deb

root=$(mktemp -d)
trap 'rm -rf "$root"' EXIT
chmod 755 "$root"
put() {
    install -D -m "$1" "$2" "$root/$3"
}
put_packed() {
    install -D -m 644 /dev/null "$root/$1"
    gzip -9n >"$root/$1"
}

share=usr/share
doc=$share/doc/babel-dump
put 755 "$top/build/babel-dump" usr/bin/babel-dump
strip --remove-section=.comment --remove-section=.note "$root/usr/bin/babel-dump"
put_packed $share/man/man1/babel-dump.1.gz <"$top/docs/babel-dump.1"
put 644 "$top/docs/babel-dump.bash" $share/bash-completion/completions/babel-dump
put 644 "$top/docs/_babel-dump" $share/zsh/vendor-completions/_babel-dump
put 644 "$top/docs/babel-dump.fish" $share/fish/vendor_completions.d/babel-dump.fish
put_packed $doc/CHANGELOG.md.gz <"$top/CHANGELOG.md"
put_packed $doc/changelog.gz <<END
babel-dump ($version) unstable; urgency=medium

  * What changed is in CHANGELOG.md.gz beside this file.

 -- $maker  $date
END
put 644 "$top/docs/copyright" $doc/copyright

mkdir "$root/DEBIAN"
cat >"$root/DEBIAN/control" <<END
Package: babel-dump
Version: $version
Architecture: $architecture
Maintainer: $maker
Depends: libc6
Section: net
Priority: optional
Installed-Size: $(du -sk "$root/usr" | cut -f 1)
Description: show what packets of the Babel routing protocol announce
 babel-dump reads packets of the Babel routing protocol (RFC 8966, with the
 source-specific routes of RFC 9079) from a capture or a dump, and shows what a
 router announces: its routes, the route for an address, a key of its state, and
 where two routers differ. What it reads, answers and writes is proved.
END
(cd "$root" && find usr -type f -exec md5sum {} +) >"$root/DEBIAN/md5sums"
dpkg-deb --build --root-owner-group "$root" "$package"
