# shellcheck shell=bash
# The revision of this folder: that of git, if the folder is the top of a repository. A repository that git refuses to read,
# as one of another owner, is an error, and not a folder without one.

# `git archive` writes the commit here.
archived='$Format:%H$'

# Prints the commit, or `unknown` in a copy without git.
revision() {
    if [ -e .git ]; then git rev-parse HEAD; else echo "${archived/\$*/unknown}"; fi
}

# Prints the time of the commit in seconds. `git archive` gives it to each file.
revision_time() {
    if [ -e .git ]; then git log -1 --format=%ct; else stat -c %Y CHANGELOG.md; fi
}
