# What packaging/build and packaging/build-table share: how a package is put together in $tree, below the folder $work, and goes to the
# folder $out. They run it in packaging/debian.

# need_tools TOOL..: of dpkg-dev.
need_tools() {
    local tool
    for tool in "$@"; do
        command -v "$tool" > /dev/null || stop "$tool is missing: Debian has it in dpkg-dev"
    done
}
# put MODE FILE PATH: copies a file into the package.
put() {
    install -D -m "$1" "$2" "$tree$3"
}
# pack FILE PATH: the same, compressed. gzip keeps no name and no time.
pack() {
    mkdir -p "$(dirname "$tree$2")"
    gzip -9nc "$1" > "$tree$2"
    chmod 644 "$tree$2"
}
# control FILE POSTINST PRERM POSTRM: what dpkg is told. Its tools look for debian/control below the folder that they run in.
control() {
    mkdir "$work/debian" "$tree/DEBIAN"
    cp "$1" "$work/debian/control"
    cp changelog "$work/debian"
    install -m 755 "$2" "$tree/DEBIAN/postinst"
    install -m 755 "$3" "$tree/DEBIAN/prerm"
    install -m 755 "$4" "$tree/DEBIAN/postrm"
    touch "$work/substvars"
}
# seal NAME CONFFILE..: makes the package of what is there, and prints its path.
seal() {
    local package
    cd "$work"
    printf '%s\n' "${@:2}" > "$tree/DEBIAN/conffiles"
    (cd "$tree" && find usr -type f -print0 | sort -z | xargs -0 md5sum) > "$tree/DEBIAN/md5sums"
    chmod 644 "$tree/DEBIAN/conffiles" "$tree/DEBIAN/md5sums"
    dpkg-gencontrol "-p$1" -P"$tree" -Tsubstvars -ffiles 2> gencontrol.log || { cat gencontrol.log >&2; exit 2; }
    # All times are that of the changelog's last entry. xz works with one thread, as more give other bytes.
    SOURCE_DATE_EPOCH=$(dpkg-parsechangelog -S Timestamp)
    export SOURCE_DATE_EPOCH
    find "$tree" -exec touch -h -d "@$SOURCE_DATE_EPOCH" {} +
    package=$1_$(dpkg-parsechangelog -S Version)_$(sed -n 's/^Architecture: //p' debian/control).deb
    dpkg-deb --root-owner-group --threads-max=1 -Zxz -b "$tree" "$package" > /dev/null
    mv "$package" "$out/"
    echo "$out/$package"
}
