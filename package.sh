#!/bin/sh
# Makes arrayd_VERSION_amd64.deb here, of the proved program ./arrayd: program, pages, service, console, documents. Twice the same
# commit gives twice the same bytes. Wants dpkg-deb, git, python3; and rt, by which is seen that the program was proved over this text.
# lintian looks at the package, where it is installed.
#
# usage: ./package.sh                        of ./arrayd, which ./example.sh --proved makes
#        ./package.sh --unproved PROGRAM     for trials, of any program: the version gets the mark ~unproved
#
# The version stands in the file VERSION alone. It is refused where the program says another, by `arrayd --version` or as its log
# begins, or where CHANGELOG.md or a tag of the commit does.
set -e
umask 022
cd "$(dirname "$0")"

refuse() {
    echo "package.sh: $1" >&2
    exit 1
}

room=$(mktemp -d)
trap 'rm -rf "$room"' EXIT
root=$room/root
version=$(cat VERSION)
case $#,$1 in
    0,)
        program=./arrayd
        [ -f "$program" ] || refuse 'there is no proved program ./arrayd here: ./example.sh --proved makes it'
        python3 tools/prove.py --look || refuse './arrayd was not proved over the text that lies here: ./example.sh --proved does it'
        [ -z "$(git status --porcelain --untracked-files=no)" ] || refuse 'the tree differs from its commit, whose date the package has'
        mark=
        ;;
    2,--unproved)
        program=$2
        mark=~unproved
        ;;
    *)
        echo 'usage: ./package.sh [--unproved PROGRAM]' >&2
        exit 2
        ;;
esac
for wanted in dpkg-deb git python3; do
    command -v "$wanted" > /dev/null || refuse "it wants the command $wanted, which is not in PATH"
done
SOURCE_DATE_EPOCH=$(git log -1 --format=%ct)
maintainer=$(git log -1 --format='%an <%ae>')
export SOURCE_DATE_EPOCH

# ---- one version everywhere

# what says it, the version that it says
agrees() {
    [ "$2" = "$version" ] || refuse "VERSION is $version, and $1 says ${2:-none}"
}

# how its log begins; the disk that it is given is not there
first_line() {
    ARRAYD_LOG=$room/log "$program" "$room/none" 2> /dev/null > /dev/null < /dev/null || true
    head -1 "$room/log" 2> /dev/null
}

agrees 'arrayd --version' "$("$program" --version 2> /dev/null | sed -n '1s/^arrayd //p')"
agrees "the first line of the program's log" "$(first_line | sed -n 's/.* version="\{0,1\}\([^" ]*\).*/\1/p')"
agrees 'CHANGELOG.md' "$(sed -n 's/^## \([^,]*\), .*/\1/p' CHANGELOG.md | head -1)"
for tag in $(git tag --points-at HEAD 'v[0-9]*'); do
    agrees 'a tag of this commit' "${tag#v}"
done

# ---- what it installs

# CHANGELOG.md in Debian's form: its sections begin with `## VERSION, YYYY-MM-DD`, and each change is a line with `- `
changelog() {
    sed -n '/^## /,$p' CHANGELOG.md > "$room/changes"
    date=
    while IFS= read -r line; do
        case $line in
            '## '*)
                [ -z "$date" ] || printf '\n -- %s  %s\n\n' "$maintainer" "$date"
                date=$(date -u -R -d "${line##*, }")
                line=${line#'## '}
                printf 'arrayd (%s%s) stable; urgency=medium\n\n' "${line%%, *}" "$mark"
                ;;
            '- '*) echo "${line#- }" | fold -s -w 75 | sed -e '1s/^/  * /' -e '2,$s/^/    /' -e 's/ *$//' ;;
        esac
    done < "$room/changes"
    printf '\n -- %s  %s\n' "$maintainer" "$date"
}

DESTDIR=$root service/install.sh "$program"
documents=$root/usr/share/doc/arrayd
# Debian has the list of changes in a form of its own, and by this name
changelog | gzip -9n > "$documents/changelog.gz"
rm "$documents/CHANGELOG.md"
install -m 0644 service/debian/copyright "$documents/copyright"
install -D -m 0644 service/debian/lintian-overrides "$root/usr/share/lintian/overrides/arrayd"
gzip -9n "$root"/usr/share/man/man8/*.8

# ---- the package

mkdir "$root/DEBIAN"
install -m 0755 service/debian/postinst service/debian/prerm service/debian/postrm "$root/DEBIAN"
(cd "$root" && find etc -type f | sort | sed 's#^#/#') > "$root/DEBIAN/conffiles"
(cd "$root" && find usr -type f | LC_ALL=C sort | xargs -d '\n' md5sum) > "$root/DEBIAN/md5sums"
# the newest version of the C library of which the program asks for something
libc=$(grep -ao 'GLIBC_[0-9.]*' "$program" | sed 's/GLIBC_//' | sort -V | tail -1)
size=$(($(find "$root/etc" "$root/usr" -type f -printf '%s\n' | awk '{ sum += int(($1 + 1023) / 1024) } END { print sum }')))
sed -e "s/@VERSION@/$version$mark/" -e "s/@MAINTAINER@/$maintainer/" -e "s/@SIZE@/$size/" -e "s/@LIBC@/$libc/" service/debian/control \
    > "$root/DEBIAN/control"
find "$root" -exec touch -h -d "@$SOURCE_DATE_EPOCH" {} +
package=arrayd_$version${mark}_amd64.deb
dpkg-deb --root-owner-group -Zxz -z9 --threads-max=1 --build "$root" "$package" > "$room/said" || refuse "$(cat "$room/said")"
if command -v lintian > /dev/null; then
    lintian --fail-on error,warning "$package" || refuse "lintian has something to say of $package"
fi
echo "$package"
