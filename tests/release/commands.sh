#!/usr/bin/env bash
# Runs the commands of docs/RELEASING.md that tag, digest, sign and verify: in a folder, with files and a key of its own.
#
#     tests/release/commands.sh
#
# It takes the lines that tests/docs/elsewhere gives it, and needs ssh-keygen and Git 2.34. The last line counts them.
set -euo pipefail
list=$(cd "$(dirname "$0")/../docs" && pwd)/elsewhere
folder=$(mktemp -d)
trap 'rm -rf "$folder"' EXIT
cd "$folder"
export HOME=$folder GIT_CONFIG_NOSYSTEM=1
mkdir -m 700 .ssh
ssh-keygen -q -t ed25519 -N '' -C release -f .ssh/release
echo "release@example.org $(cat .ssh/release.pub)" >allowed_signers
git config --global gpg.format ssh
git config --global user.signingkey "$HOME/.ssh/release.pub"
git config --global user.name release
git config --global user.email release@example.org
git init -q
git commit -q --allow-empty -m release
echo package >cadf_0.1.0_amd64.deb
echo command >cadf-0.1.0-amd64-static
echo bill >cadf-0.1.0-amd64-static.spdx.json
sed -n 's/^tests\/release\/commands\.sh: //p' "$list" >commands
bash -exo pipefail commands
echo "release-commands: all $(wc -l <commands) commands ran"
