# What the document tools share: the crates of crates.txt by group, as lines of group, crate and the group's sentence, parted
# by tabs. A tool sources this file at the top of the repository. A group begins with a line `# Word: sentence`.
crates_by_group() {
  awk '
    /^# [A-Z][a-z]+: / { group = substr($2, 1, length($2) - 1); sentence = $0; sub(/^# [A-Za-z]+: /, "", sentence); next }
    /^#/ || /^[ \t]*$/ { next }
    { crate = $1; sub(/:.*/, "", crate); print group "\t" crate "\t" sentence }' crates.txt
}
