# shellcheck shell=sh disable=SC2154
# What the scripts that build have in common; they read it in. They set `root`
# (the repository) before.

# The folder of the Rust sources, and where what is built goes.
sources=${ORACLE_SOURCES:-$root/../shared/docs/src}
out=${ORACLE_OUT:-$root/target/oracle}

# A path attribute takes only a literal, so the two lines that name the
# sources are written here and stay out of the tracked files.
name_device() {
    device=$(CDPATH='' cd -- "$sources/core/src" && pwd)
    mkdir -p -- "$out"
    out=$(CDPATH='' cd -- "$out" && pwd)
    for module in cpu sys; do
        printf '#[allow(warnings)]\n#[path = r#"%s/%s.rs"#]\npub mod %s;\n' \
            "$device" "$module" "$module"
    done >"$out/device.rs"
    export ORACLE_DEVICE="$out/device.rs"
}

# Compiles the source that comes first into the program that comes second;
# what follows goes to the compiler.
compile() {
    from=$1 to=$2
    shift 2
    rustc --edition 2021 -O "$@" -o "$to" "$from"
}
