# Rust's crates as Debian 13 packages them, from the archive that this machine's apt knows. To be sourced.

# FOLDER: reads the archive's list of packages into it. Says what is missing where it cannot.
debian_open() {
    local mirror
    if ! command -v apt-get dpkg-deb >/dev/null; then
        echo "Debian's packages: not tried, this machine has no apt-get"
        return 1
    fi
    # A machine that has not read its lists knows no archive.
    mirror=$(apt-get indextargets --format '$(ORIGIN) $(REPO_URI)' 'Created-By: Packages' 'Component: main' | sed -n 's/^Debian //p' | grep -v security | head -n 1)
    if [ -z "$mirror" ]; then
        echo "Debian's packages: not tried, apt knows no archive of Debian: run 'apt-get update', or name the crate's source in REFERENCE"
        return 1
    fi
    debian=$1
    mkdir -p "$debian/lists/partial" "$debian/cache/archives/partial" "$debian/packages"
    echo "deb $mirror trixie main" >"$debian/sources"
    # No package is installed there, so each comes with all that it stands on.
    : >"$debian/status"
    debian_apt=(-q -o "Dir::Etc::sourcelist=$debian/sources" -o Dir::Etc::sourceparts=- -o "Dir::State::lists=$debian/lists" -o "Dir::State::status=$debian/status"
        -o "Dir::Cache=$debian/cache" -o "APT::Sandbox::User=$(id -un)")
    if ! timeout 120 apt-get "${debian_apt[@]}" update >"$debian/log" 2>&1; then
        echo "Debian's packages: not tried, the archive's list cannot be read"
        tail -n 3 "$debian/log"
        return 1
    fi
}

# CRATE..: unpacks these crates and those that they stand on, each to a folder of its name and version in $debian/registry.
debian_crates() {
    local crate packages=() files=()
    for crate in "$@"; do
        packages+=("librust-${crate//_/-}-dev")
    done
    mapfile -t files < <(apt-get "${debian_apt[@]}" install --simulate --no-install-recommends "${packages[@]}" 2>"$debian/log" | sed -n 's/^Inst \(librust-[^ ]*\).*/\1/p')
    if [ "${#files[@]}" = 0 ] || ! (cd "$debian/packages" && timeout 300 apt-get "${debian_apt[@]}" download "${files[@]}" >"$debian/log" 2>&1); then
        echo "Debian's packages: ${packages[*]} cannot be fetched"
        tail -n 3 "$debian/log"
        return 1
    fi
    for file in "$debian"/packages/*.deb; do
        dpkg-deb -x "$file" "$debian/files"
    done
    rm "$debian"/packages/*.deb
    registry=$debian/files/usr/share/cargo/registry
}
