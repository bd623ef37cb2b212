#!/bin/bash
# Makes a Debian package of the built program, without a network: reviewgate_VERSION_amd64.deb.
#
# Usage: install/deb.sh [PROGRAM [FOLDER]]      PROGRAM as install/install.sh has it; FOLDER is where the package goes,
#                                               by default the present one
#
# MAINTAINER of the environment is the package's maintainer. The package depends on bash and util-linux, and recommends
# openssh-client, which examples/feed needs. Installing it makes the user of the feed; it starts nothing.
set -eu
unset CDPATH
umask 022
scripts=$(cd "$(dirname "$0")" && pwd)
program=${1:-$scripts/../crates/reviewgate/out/reviewgate}
[[ $program == */* ]] || program=./$program # not one that PATH has
folder=${2:-.}
tree=$(mktemp -d)
chmod 755 "$tree"
trap 'rm -rf "$tree"' EXIT

version=$("$program" --version)
version=${version#reviewgate }
version=${version%% *}
glibc=$(grep -aoE 'GLIBC_2\.[0-9]+' "$program" | sort -Vu | tail -n 1)
DESTDIR=$tree PREFIX=/usr UNITS=/lib/systemd/system "$scripts/install.sh" "$program"
gzip -9n "$tree/usr/share/man/man1/reviewgate.1"
mv "$tree/usr/share/doc/reviewgate/LICENSE" "$tree/usr/share/doc/reviewgate/copyright"
gzip -9n "$tree/usr/share/doc/reviewgate/CHANGELOG.md"
mkdir -p "$tree/usr/lib/sysusers.d" "$tree/DEBIAN"
printf 'u reviewgate-feed - "reviewgate, fed by Gerrit" /var/lib/reviewgate-feed\n' \
    >"$tree/usr/lib/sysusers.d/reviewgate.conf"

cat >"$tree/DEBIAN/control" <<CONTROL
Package: reviewgate
Version: $version
Architecture: amd64
Maintainer: ${MAINTAINER:-reviewgate <root@localhost>}
Section: devel
Priority: optional
Installed-Size: $(du -ks --exclude=DEBIAN "$tree" | cut -f 1)
Depends: libc6 (>= ${glibc#GLIBC_}), bash (>= 4.4), util-linux
Recommends: openssh-client
Description: review record of Gerrit changes, kept at several sites
 Each site keeps its own copy of the review record (patch sets, votes, abandons,
 restores, merges), gossips it to the others, and says from its own copy which
 changes a Zuul dependent pipeline may enqueue, and why each other one waits.
CONTROL
cat >"$tree/DEBIAN/postinst" <<'SCRIPT'
#!/bin/sh
set -e
if [ "$1" = configure ]; then
    if command -v systemd-sysusers > /dev/null; then systemd-sysusers reviewgate.conf; fi
    if [ -d /run/systemd/system ]; then systemctl daemon-reload; fi
fi
SCRIPT
cat >"$tree/DEBIAN/prerm" <<'SCRIPT'
#!/bin/sh
set -e
if [ "$1" = remove ] && [ -d /run/systemd/system ]; then
    systemctl stop reviewgate-feed.service reviewgate.service || true
fi
SCRIPT
chmod 755 "$tree/DEBIAN/postinst" "$tree/DEBIAN/prerm"
(cd "$tree" && find . -path ./DEBIAN -prune -o -type f -printf '%P\0' | sort -z | xargs -0 md5sum >DEBIAN/md5sums)
dpkg-deb --root-owner-group --build "$tree" "$folder/reviewgate_${version}_amd64.deb"
