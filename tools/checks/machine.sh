# shellcheck shell=bash
# What the checks ask of a machine: a script that has the top of the repository in `top` takes these in.

# Prints the path without the toolchain: a folder that has it is replaced by one with links to all else in it, in the folder $1.
path_without_toolchain() {
    local folder folders=()
    IFS=: read -ra folders <<<"$PATH"
    for folder in "${folders[@]}"; do
        if [ -x "$folder/rt" ]; then
            mkdir -p "$1/without"
            ln -sf "$folder"/* "$1/without"
            rm "$1/without/rt"
            folder=$1/without
        fi
        printf '%s:' "$folder"
    done
}

# Whether cargo is there, and no older than the Rust package asks for.
has_cargo() {
    local wanted
    wanted=$(sed -nE 's/^rust-version = "(.*)"$/\1/p' "$top/bindings/rust/Cargo.toml")
    command -v cargo >/dev/null && [ "$(printf '%s\n' "$wanted" "$(cargo --version | cut -d' ' -f2)" | sort -V | head -n 1)" = "$wanted" ]
}

# Prints the folder of the first cargo on the path that is new enough, and whose rustc has the standard library for this target.
cargo_for() {
    local rustc folder
    while read -r rustc; do
        folder=$(dirname "$rustc")
        if [ -x "$folder/cargo" ] && PATH=$folder:$PATH has_cargo &&
            compgen -G "$("$rustc" --print target-libdir --target "$1" 2>/dev/null)/libstd-*.rlib" >/dev/null; then
            echo "$folder"
            return
        fi
    done < <(type -aP rustc)
    return 1
}
