# What the Debian packages of the program and of the library share: functions for scripts/making/packages and packages-library, which set
# `root`, `version` and SOURCE_DATE_EPOCH, and read this file.
about() {
  sed -n "s/^$1: //p" "$root/scripts/packages/about"
}

maintainer="$(about owners) <$(about mail)>"

# put_texts FOLDER LINKED CHANGES: the copyright and the changes of a package, whose documents are in FOLDER. LINKED is what is linked with
# crates that have notices, and CHANGES says where the changes are listed.
put_texts() {
  mkdir -p "$1"
  {
    printf '%s\n' 'Format: https://www.debian.org/doc/packaging-manuals/copyright-format/1.0/' 'Upstream-Name: ppdb' '' 'Files: *' \
      "Copyright: 2026 $(about owners)" "License: $(about license)" \
      " On Debian systems the text is in /usr/share/common-licenses/$(about license)." \
      " The notices of the crates that the $2 is linked with are in NOTICE."
  } >"$1/copyright"
  {
    printf 'ppdb (%s) unstable; urgency=medium\n\n' "$version"
    printf '  * %s\n\n' "$3"
    printf ' -- %s  %s\n' "$maintainer" "$(date -u -R -d "@$SOURCE_DATE_EPOCH")"
  } | gzip -9n >"$1/changelog.gz"
}

# put_package STAGE FILE: the package of a stage, whose bytes depend on its files alone.
put_package() {
  (cd "$1" && find usr -type f -print0 | sort -z | xargs -0 md5sum >DEBIAN/md5sums)
  find "$1" -exec touch -h -d "@$SOURCE_DATE_EPOCH" {} +
  dpkg-deb --root-owner-group -Zgzip -z9 -b "$1" "$2" >/dev/null
}
