# The test copy of the Rust crate gift-cipher 0.1.0, for the scripts that compare with it. Sourced.

# crate_given NAME [SOURCE]: sets `given` to the crate's folder as the reader of the script NAME named it, or to nothing. Before any change of folder,
# since a path is read from where the reader stands.
crate_given() {
    given=${2-${GIFT_CIPHER-}}
    [ -z "$given" ] && return 0
    given=$(cd "$given" 2>/dev/null && pwd -P) && return 0
    echo "$1: there is no folder ${2-$GIFT_CIPHER}" >&2
    exit 2
}

# crate_copy NAME FOLDER: puts the crate's files into FOLDER: three as they are, in blocks.rs the text of the two block functions of lib.rs, made visible,
# and in cipher.rs what stands in for the types of their signatures. Run at the top of the repository.
crate_copy() {
    : "${given:=../shared/docs/src}"
    source=''
    for folder in "$given" "$given/src"; do
        if [ -f "$folder/lib.rs" ]; then source=$folder; break; fi
    done
    if [ -z "$source" ]; then
        echo "$1: the source of the crate gift-cipher 0.1.0 is not at $given: name its folder, as '$1 FOLDER', or in GIFT_CIPHER" >&2
        exit 2
    fi
    if ! cp "$source/consts.rs" "$source/primitives.rs" "$source/key_schedule.rs" oracle/cipher.rs "$2/"; then
        echo "$1: $source has lib.rs, and not all of the other three files" >&2
        exit 2
    fi
    {
        echo "// The two block functions of the crate's lib.rs, word for word, but that they are visible."
        echo 'use crate::cipher::{Block, Gift128, InOut};'
        echo 'use crate::consts::GIFT_RC;'
        echo 'use crate::primitives::{inv_quintuple_round, packing, quintuple_round, unpacking};'
        echo 'impl Gift128 {'
        awk '/^    fn (en|de)crypt_block\(/ { on = 1; sub(/fn/, "pub(crate) fn") } on { print } on && /^    }$/ { on = 0 }' "$source/lib.rs"
        echo '}'
    } >"$2/blocks.rs"
    [ "$(grep -c '^    pub(crate) fn' "$2/blocks.rs")" -eq 2 ] && return 0
    echo "$1: the two block functions are not found in $source/lib.rs" >&2
    exit 2
}
