# Sourced by ./test and ./run: finds or installs what they need.
: "${root:?the directory of the repository, set by the script that sources this}"

setup_fail() {
    echo "setup: $*" >&2
    return 1
}

as_root() {
    if [ "$(id -u)" -eq 0 ]; then
        "$@"
    elif command -v sudo >/dev/null; then
        sudo "$@"
    else
        setup_fail "not root, and no sudo: cannot run $*"
    fi
}

# install_package PACKAGE: from Debian; the lists are fetched once.
install_package() {
    command -v apt-get >/dev/null || setup_fail "$1 is missing, and there is no apt-get" || return 1
    if [ -z "${lists_fetched:-}" ]; then
        as_root apt-get update -qq || return 1
        lists_fetched=yes
    fi
    echo "setup: installing $1"
    as_root env DEBIAN_FRONTEND=noninteractive apt-get install -y -qq "$1" >/dev/null
}

# need_program PROGRAM PACKAGE
need_program() {
    command -v "$1" >/dev/null || install_package "$2"
}

need_rt() {
    command -v rt >/dev/null || setup_fail "rt, the Rattle toolchain, is not on the PATH"
}

# The Rust's four files: sets SMITHY_XML_SRC, or fails where they are not at hand.
find_rust_source() {
    if [ -z "${SMITHY_XML_SRC:-}" ]; then
        [ -f "$root/../shared/docs/src/src/unescape.rs" ] || return 1
        SMITHY_XML_SRC=$root/../shared/docs/src
    fi
    export SMITHY_XML_SRC
}

# The source of xmlparser, which decode.rs wants: sets XMLPARSER_SRC.
find_xmlparser() {
    if [ -z "${XMLPARSER_SRC:-}" ]; then
        packaged_xmlparser || { install_package librust-xmlparser-dev && packaged_xmlparser; } ||
            setup_fail "no source of xmlparser; set XMLPARSER_SRC" || return 1
    fi
    export XMLPARSER_SRC
}

# Where Debian's package puts it.
packaged_xmlparser() {
    for XMLPARSER_SRC in /usr/share/cargo/registry/xmlparser-*; do
        [ ! -f "$XMLPARSER_SRC/src/lib.rs" ] || return 0
    done
    XMLPARSER_SRC=
    return 1
}

# xmlparser as a crate that cargo finds without fetching: the wrapper's feature wants it, and
# offline cargo asks for it even where the feature is off.
need_xmlparser_crate() {
    local XMLPARSER_SRC
    packaged_xmlparser && return 0
    install_package librust-xmlparser-dev && packaged_xmlparser ||
        setup_fail "no crate xmlparser in /usr/share/cargo/registry"
}

# cargo_offline COMMAND...: cargo with Debian's crates for those of crates.io.
cargo_offline() {
    local command=$1
    shift
    cargo "$command" --config "$root/tools/debian.toml" --offline "$@"
}
