#!/bin/sh
# fetch.sh FOLDER: fetches Debian's source of expat into FOLDER (which must not be there) by apt-get. Its lists are kept there too, and
# nothing of the system changes.
set -e
mkdir "$1"
cd "$1"
mkdir -p lists/partial
echo "deb-src [signed-by=/usr/share/keyrings/debian-archive-keyring.gpg] http://deb.debian.org/debian bookworm main" >src.list
options="-q -o Dir::Etc::SourceList=$PWD/src.list -o Dir::Etc::SourceParts=- -o Dir::State::Lists=$PWD/lists"
apt-get $options update
apt-get $options source --download-only expat
mkdir expat
tar -xf expat_*.orig.tar.* -C expat --strip-components=1
